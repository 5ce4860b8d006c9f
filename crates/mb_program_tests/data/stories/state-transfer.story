minbft schedule 2
f 1
k 4
clients 1
secret 0000000000000000000000000000000000000000000000000000000000000000
faulty
ask c0 010161000131
  made 1
  client c0 asked 1 accepted 0
give 1 h0
  took
  made 2
  host h0 view 0 open exec 0 low 0 log 1 longest 1
give 2 h1
  took
  made 3
  made 4 reply c0
  slot 1 0 c0 1 fresh 010161000131
  host h1 view 0 open exec 1 low 0 log 1 longest 1
give 3 h0
  took
  made 5 reply c0
  host h0 view 0 open exec 1 low 0 log 1 longest 1
ask c0 010161000132
  made 6
  client c0 asked 2 accepted 0
give 6 h0
  took
  made 7
  host h0 view 0 open exec 1 low 0 log 2 longest 2
give 7 h1
  took
  made 8
  made 9 reply c0
  slot 2 0 c0 2 fresh 010161000132
  host h1 view 0 open exec 2 low 0 log 2 longest 2
give 8 h0
  took
  made 10 reply c0
  host h0 view 0 open exec 2 low 0 log 2 longest 2
ask c0 010161000133
  made 11
  client c0 asked 3 accepted 0
give 11 h0
  took
  made 12
  host h0 view 0 open exec 2 low 0 log 3 longest 3
give 12 h1
  took
  made 13
  made 14 reply c0
  slot 3 0 c0 3 fresh 010161000133
  host h1 view 0 open exec 3 low 0 log 3 longest 3
give 13 h0
  took
  made 15 reply c0
  host h0 view 0 open exec 3 low 0 log 3 longest 3
ask c0 010161000134
  made 16
  client c0 asked 4 accepted 0
give 16 h0
  took
  made 17
  host h0 view 0 open exec 3 low 0 log 4 longest 4
give 17 h1
  took
  made 18
  made 19 reply c0
  made 20
  slot 4 0 c0 4 fresh 010161000134
  host h1 view 0 open exec 4 low 0 log 5 longest 5
give 18 h0
  took
  made 21 reply c0
  made 22
  host h0 view 0 open exec 4 low 0 log 5 longest 5
give 20 h0
  took
  host h0 view 0 open exec 4 low 4 log 5 longest 5
give 22 h1
  took
  host h1 view 0 open exec 4 low 4 log 5 longest 5
nudge h2
  took
  made 23
  host h2 view 0 open exec 0 low 0 log 0 longest 0
give 23 h0
  took
  made 24
  host h0 view 0 open exec 4 low 4 log 5 longest 5
give 24 h2
  took
  made 25
  host h2 view 0 open exec 0 low 4 log 0 longest 0
give 25 h0
  took
  made 26
  host h0 view 0 open exec 4 low 4 log 5 longest 5
give 26 h2
  took
  made 27
  host h2 view 0 open exec 4 low 4 log 1 longest 1
ask c0 010161000135
  made 28
  client c0 asked 5 accepted 0
give 28 h0
  took
  made 29
  host h0 view 0 open exec 4 low 4 log 6 longest 6
give 29 h2
  took
  made 30
  made 31 reply c0
  slot 5 0 c0 5 fresh 010161000135
  host h2 view 0 open exec 5 low 4 log 2 longest 2
