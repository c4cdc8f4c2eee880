"""The parts of binlog-capture: servers, GTIDs, the output, a command that takes the lines, and what is said of a run."""
