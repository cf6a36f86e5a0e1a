# 64 clients, one more, and again after one of them went: no number comes twice.
echo '{"nodes":[{"path":"s","spawner":{"under":"s","scenes":["p"]}}],"scenes":[{"name":"p","props":[["v",0]],"methods":[],"syncs":[{"props":[["v","change",true]]}]}]}'
for i in $(seq 64); do echo '["connect"]'; done
echo '["connect"]'
echo '["down",10]'
echo '["report",1]'
echo '["connect"]'
echo '["connect"]'
