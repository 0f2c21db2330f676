toxiproxy-cli create -l localhost:18080 -u localhost:8080 shop
toxiproxy-cli toxic add -t latency -a latency=1000 -a jitter=50 -n slow shop
toxiproxy-cli toxic add -t limit_data -a bytes=4096 --toxicity 0.3 -u shop
toxiproxy-cli toggle shop
