# Proves the archive and writes it; its folder is told to the builds by ARCHIVE. To be sourced from the repository's root. Where ARCHIVE is
# set, the archive there is taken: so the test command makes it once. Its status is 0 if there is an archive.
if [ -z "${ARCHIVE:-}" ]; then
  rm -f target/staticlib/libmalovuneth.a
  if ! ./malovuneth archive >/dev/null 2>&1; then
    grep -E '^rt: |: error|: it is not proved that ' target/staticlib.log | grep -v '^rt: chose ' | cut -c1-300
    return 2
  fi
  export ARCHIVE=$PWD/target/staticlib
fi
[ -f "$ARCHIVE/libmalovuneth.a" ] || { echo "there is no $ARCHIVE/libmalovuneth.a"; return 2; }
