curl localhost:8474/proxies -d '{
  "name": "shop", "listen": "localhost:18080", "upstream": "localhost:8080"
}'
http :8474/proxies/shop/toxics type=limit_data stream=upstream toxicity:=0.3 'attributes[bytes]:=4096'
