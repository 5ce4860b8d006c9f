minbft schedule 2
f 1
k 4
clients 2
secret 0000000000000000000000000000000000000000000000000000000000000000
faulty
ask c0 010161000131
  made 1
  client c0 asked 1 accepted 0
ask c1 010162000132
  made 2
  client c1 asked 1 accepted 0
give 1 h0
  took
  made 3
  host h0 view 0 open exec 0 low 0 log 1 longest 1
give 2 h0
  took
  made 4
  host h0 view 0 open exec 0 low 0 log 2 longest 2
give 4 h2
  refused 5 ahead 1
  host h2 view 0 open exec 0 low 0 log 0 longest 0
nudge h2
  took
  made 5
  host h2 view 0 open exec 0 low 0 log 0 longest 0
give 5 h0
  took
  made 6
  host h0 view 0 open exec 0 low 0 log 2 longest 2
give 6 h2
  took
  made 7
  made 8
  made 9 reply c0
  made 10 reply c1
  slot 1 0 c0 1 fresh 010161000131
  slot 2 0 c1 1 fresh 010162000132
  host h2 view 0 open exec 2 low 0 log 2 longest 2
