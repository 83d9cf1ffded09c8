# plain.awk: from a zone with one whole record a line, in the order owner, TTL, class, type, data, a zone that enumd
# reads. The ten types stay as they stand. The records of DNSSEC go. Each other record becomes a TXT at its owner,
# since a name that vanishes would let a wildcard cover it.
#
#   named-compilezone -q -i none -k ignore -s full -o - APEX FILE | awk -f plain.awk
#   dig @SERVER +noall +answer APEX axfr | awk -f plain.awk

/^;/ || NF < 5 { next }

$4 ~ /^(A|NS|CNAME|SOA|PTR|MX|TXT|AAAA|SRV|NAPTR)$/ {
    print
    if ($4 == "CNAME") alias[tolower($1)] = 1
    next
}

$4 !~ /^(RRSIG|NSEC|NSEC3|NSEC3PARAM|DNSKEY|DS|CDS|CDNSKEY)$/ {
    other[tolower($1)] = $2 " IN TXT \"" $4 "\""
}

# Beside an alias nothing else stands.
END {
    for (owner in other)
        if (!(owner in alias)) print owner, other[owner]
}
