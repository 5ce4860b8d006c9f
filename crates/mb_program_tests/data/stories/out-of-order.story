minbft schedule 2
f 1
k 4
clients 3
secret 0000000000000000000000000000000000000000000000000000000000000000
faulty
ask c0 010161000131
  made 1
  client c0 asked 1 accepted 0
ask c1 010161000131
  made 2
  client c1 asked 1 accepted 0
ask c2 010161000131
  made 3
  client c2 asked 1 accepted 0
give 1 h0
  took
  made 4
  host h0 view 0 open exec 0 low 0 log 1 longest 1
give 2 h0
  took
  made 5
  host h0 view 0 open exec 0 low 0 log 2 longest 2
give 3 h0
  took
  made 6
  host h0 view 0 open exec 0 low 0 log 3 longest 3
give 4 h1
  took
  made 7
  made 8 reply c0
  slot 1 0 c0 1 fresh 010161000131
  host h1 view 0 open exec 1 low 0 log 1 longest 1
give 6 h1
  refused 8 ahead 2
  host h1 view 0 open exec 1 low 0 log 1 longest 1
give 5 h1
  took
  made 9
  made 10 reply c1
  slot 2 0 c1 1 fresh 010161000131
  host h1 view 0 open exec 2 low 0 log 2 longest 2
give 6 h1
  took
  made 11
  made 12 reply c2
  slot 3 0 c2 1 fresh 010161000131
  host h1 view 0 open exec 3 low 0 log 3 longest 3
