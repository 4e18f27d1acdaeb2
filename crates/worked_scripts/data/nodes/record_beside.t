A record begins in the second file if the first one is no record. The node says that its network cannot be kept, since a
folder stands in that place, and it runs on. It leaves nothing else but its lock file and its state.

  $ cp line.toml net.toml; mkdir -p run/record.toml; printf stays >run/record-0.0
  $ start 0 --record; cat out-0
  start default Absent
  ready
  $ stop 0 >why; left 0; sed 's/; /;\n/' why
  tokentree: run/record.toml: the network is not kept, so give it to gather by --network;
  the node runs on: Is a directory (os error 21)
  $ cat run/record-0.0; echo
  stays
  $ kinds run/record-0.1; head -n 4 seen | sed 's/^start [0-9]* /start /'
  start own port loan whole
  start 0
  own 3 0
  port 1 0 0 3 0 0 3 0 0 0
  loan 0 0 0
  $ ls run
  lock-0
  record-0.0
  record-0.1
  record.toml
  state-0.tkt
