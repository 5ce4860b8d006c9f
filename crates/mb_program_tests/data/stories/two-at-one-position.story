minbft schedule 2
f 1
k 4
clients 2
secret 0000000000000000000000000000000000000000000000000000000000000000
faulty h0
ask c0 010161000131
  made 1
  client c0 asked 1 accepted 0
ask c1 010162000132
  made 2
  client c1 asked 1 accepted 0
stamp h0 prepare 0 1 1
  made 3
stamp h0 prepare 0 1 2
  made 4
give 3 h1
  took
  made 5
  made 6 reply c0
  slot 1 0 c0 1 fresh 010161000131
  host h1 view 0 open exec 1 low 0 log 1 longest 1
give 4 h1
  refused 6 illegal 6
  host h1 view 0 open exec 1 low 0 log 1 longest 1
give 5 h2
  took
  made 7
  made 8 reply c0
  host h2 view 0 open exec 1 low 0 log 1 longest 1
give 4 h2
  refused 8 illegal 6
  host h2 view 0 open exec 1 low 0 log 1 longest 1
stamp h0 prepare 0 2 2
  made 9
give 9 h1
  refused 10 convicted 2
  host h1 view 0 open exec 1 low 0 log 1 longest 1
