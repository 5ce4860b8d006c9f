minbft schedule 2
f 1
k 4
clients 1
secret 0000000000000000000000000000000000000000000000000000000000000000
faulty
ask c0 010161000131
  made 1
  client c0 asked 1 accepted 0
give 1 h0
  took
  made 2
  host h0 view 0 open exec 0 low 0 log 1 longest 1
give 2 h1
  took
  made 3
  made 4 reply c0
  slot 1 0 c0 1 fresh 010161000131
  host h1 view 0 open exec 1 low 0 log 1 longest 1
give 1 h2
  took
  host h2 view 0 open exec 0 low 0 log 0 longest 0
patience h1
  took
  made 5
  host h1 view 0 open exec 1 low 0 log 1 longest 1
patience h2
  took
  made 6
  host h2 view 0 open exec 0 low 0 log 0 longest 0
give 5 h2
  took
  made 7
  host h2 view 1 changing exec 0 low 0 log 1 longest 1
give 6 h1
  took
  made 8
  host h1 view 1 changing exec 1 low 0 log 2 longest 2
give 3 h2
  took
  host h2 view 1 changing exec 0 low 0 log 1 longest 1
give 7 h1
  took
  made 9
  host h1 view 1 entered exec 1 low 0 log 3 longest 3
give 8 h2
  took
  host h2 view 1 changing exec 0 low 0 log 1 longest 1
give 9 h2
  took
  made 10
  made 11
  host h2 view 1 open exec 0 low 0 log 3 longest 3
give 10 h1
  took
  made 12
  host h1 view 1 open exec 1 low 0 log 4 longest 4
give 11 h1
  took
  host h1 view 1 open exec 1 low 0 log 4 longest 4
give 12 h2
  took
  made 13 reply c0
  host h2 view 1 open exec 1 low 0 log 3 longest 3
take 4 c0
  waiting 1
  client c0 asked 1 accepted 0
take 13 c0
  accepted 1
  client c0 asked 1 accepted 1
  result c0 1 1 00
