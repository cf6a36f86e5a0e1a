# Each value is too long, and each line but the last has an earlier reason too.
cat <<'END'
{"nodes":[{"path":"n","props":[["v",0]]},{"path":"c","auth":2,"props":[["v",0]]}],"scenes":[]}
END
printf '%s' '["op",1,["set","x","w","'; head -c 65529 /dev/zero | tr '\0' x; printf '%s\n' '"]]'
printf '%s' '["op",1,["set","c","w","'; head -c 65529 /dev/zero | tr '\0' x; printf '%s\n' '"]]'
printf '%s' '["op",1,["set","n","w","'; head -c 65529 /dev/zero | tr '\0' x; printf '%s\n' '"]]'
printf '%s' '["op",1,["set","n","v","'; head -c 65529 /dev/zero | tr '\0' x; printf '%s\n' '"]]'
echo '["report",1]'
