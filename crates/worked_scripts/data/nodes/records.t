A node does not write its record through symbolic links, and says that the record ends.

  $ cp line.toml net.toml; mkdir run; printf stays >run/target
  $ ln -s target run/record-0.0; ln -s target run/record-0.1
  $ start 0 --record; cat out-0; stop 0; left 0
  start default Absent
  ready
  tokentree: run/record-0.0: the record ends, and the node runs on: it is no plain file
  $ cat run/target; echo
  stays
