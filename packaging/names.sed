# What stands in texts and scripts of the checkout, as it is called where the package is installed.
s|/usr/local/lib/gubnatris/README\.md|/usr/share/doc/gubnatris/README.md|g
s|/usr/local/lib/gubnatris|/usr/lib/gubnatris|g
/\.\/os try/!s|\./os |gubnatris |g
s|`\./os`|`gubnatris`|g
s|"\./os "|"gubnatris "|g
s|'os: |'gubnatris: |g
s,\(^\|[^/]\)tools/mps_to_osil,\1gubnatris-mps-to-osil,g
s,\(^\|[^/]\)tools/lp_to_osil,\1gubnatris-lp-to-osil,g
s,\(^\|[^/]\)tools/show_result,\1gubnatris-show-result,g
s,\(^\|[^/]\)tools/watch_jobs,\1gubnatris-watch-jobs,g
s,\(^\|[^/]\)clients/ampl/gubnatris_ampl,\1gubnatris_ampl,g
1s|^#!/usr/bin/env python3|#!/usr/bin/python3|
