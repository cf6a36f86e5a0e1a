# 4,096 nodes of one sender came. One more is too many, whatever its values, but not where its name is taken.
echo '{"nodes":[{"path":"s","spawner":{"under":"s","scenes":["p"]}}],"scenes":[{"name":"p","props":[],"methods":[],"syncs":[]}]}'
echo '["peer",2]'
echo '["up",1]'
python3 -c '
for i in range(1, 4098):
    name = b"n%d" % i + b"\0"
    print("[\"got\",1,\"reliable\",\"0400" + (1).to_bytes(4, "little").hex() + i.to_bytes(4, "little").hex() + "00000000" + len(name).to_bytes(4, "little").hex() + name.hex() + "\"]")
'
echo '["got",1,"reliable","0400010000000110000000000000030000006e31000205"]'
echo '["got",1,"reliable","0400010000000110000000000000030000006e78000205"]'
echo '["got",1,"reliable","0501000000"]'
echo '["got",1,"reliable","0400010000000110000000000000030000006e7800"]'
