module cuvragyen

go 1.19
