minbft schedule 2
f 1
k 8
clients 6
secret 0000000000000000000000000000000000000000000000000000000000000000
faulty
ask c0 010161000131
  made 1
  client c0 asked 1 accepted 0
ask c1 010161000131
  made 2
  client c1 asked 1 accepted 0
ask c2 010161000131
  made 3
  client c2 asked 1 accepted 0
ask c3 010161000131
  made 4
  client c3 asked 1 accepted 0
ask c4 010161000131
  made 5
  client c4 asked 1 accepted 0
ask c5 010161000131
  made 6
  client c5 asked 1 accepted 0
give 1 h0
  took
  made 7
  host h0 view 0 open exec 0 low 0 log 1 longest 1
give 2 h0
  took
  made 8
  host h0 view 0 open exec 0 low 0 log 2 longest 2
give 3 h0
  took
  made 9
  host h0 view 0 open exec 0 low 0 log 3 longest 3
give 4 h0
  took
  made 10
  host h0 view 0 open exec 0 low 0 log 4 longest 4
give 5 h0
  took
  host h0 view 0 open exec 0 low 0 log 4 longest 4
give 6 h0
  took
  host h0 view 0 open exec 0 low 0 log 4 longest 4
give 7 h1
  took
  made 11
  made 12 reply c0
  slot 1 0 c0 1 fresh 010161000131
  host h1 view 0 open exec 1 low 0 log 1 longest 1
give 11 h0
  took
  made 13 reply c0
  made 14
  host h0 view 0 open exec 1 low 0 log 5 longest 5
give 8 h1
  took
  made 15
  made 16 reply c1
  slot 2 0 c1 1 fresh 010161000131
  host h1 view 0 open exec 2 low 0 log 2 longest 2
give 9 h1
  took
  made 17
  made 18 reply c2
  slot 3 0 c2 1 fresh 010161000131
  host h1 view 0 open exec 3 low 0 log 3 longest 3
give 10 h1
  took
  made 19
  made 20 reply c3
  slot 4 0 c3 1 fresh 010161000131
  host h1 view 0 open exec 4 low 0 log 4 longest 4
give 14 h1
  took
  made 21
  made 22 reply c4
  made 23 reply c5
  slot 5 0 c4 1 fresh 010161000131
  slot 5 1 c5 1 fresh 010161000131
  host h1 view 0 open exec 5 low 0 log 5 longest 5
