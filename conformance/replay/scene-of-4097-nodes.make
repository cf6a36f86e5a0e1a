# One fixed node more than is allowed.
awk 'BEGIN { printf "{\"nodes\":["; for (i = 0; i < 4097; i++) printf "%s{\"path\":\"n%d\"}", (i ? "," : ""), i; print "],\"scenes\":[]}" }'
echo '["connect"]'
