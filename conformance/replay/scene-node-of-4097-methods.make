# One method more than is allowed.
awk 'BEGIN { printf "{\"nodes\":[{\"path\":\"a\",\"methods\":["; for (i = 0; i < 4097; i++) printf "%s{\"name\":\"m%d\",\"mode\":\"any\",\"local\":true,\"class\":\"reliable\",\"args\":0}", (i ? "," : ""), i; print "]}],\"scenes\":[]}" }'
echo '["connect"]'
