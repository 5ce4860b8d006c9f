minbft schedule 2
f 1
k 4
clients 1
secret 0000000000000000000000000000000000000000000000000000000000000000
faulty
ask c0 010161000131
  made 1
  client c0 asked 1 accepted 0
give 1 h0
  took
  made 2
  host h0 view 0 open exec 0 low 0 log 1 longest 1
give 2 h1
  took
  made 3
  made 4 reply c0
  slot 1 0 c0 1 fresh 010161000131
  host h1 view 0 open exec 1 low 0 log 1 longest 1
give 3 h0
  took
  made 5 reply c0
  host h0 view 0 open exec 1 low 0 log 1 longest 1
give 1 h1
  again
  made 6 reply c0
  host h1 view 0 open exec 1 low 0 log 1 longest 1
give 1 h0
  again
  made 7 reply c0
  host h0 view 0 open exec 1 low 0 log 1 longest 1
take 6 c0
  waiting 1
  client c0 asked 1 accepted 0
take 7 c0
  accepted 1
  client c0 asked 1 accepted 1
  result c0 1 1 00
