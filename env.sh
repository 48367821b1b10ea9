# Lets C compilers, cargo and Python find pciguest. Source it in each new terminal, at the top of the clone or of the unpacked
# tarball: . ./env.sh
if [ -d share/pciguest ]; then
  PCIGUEST_LIBRARY_DIR=$PWD/lib CPATH=$PWD/include${CPATH:+:$CPATH} PYTHONPATH=$PWD/share/pciguest/python${PYTHONPATH:+:$PYTHONPATH}
else
  PCIGUEST_LIBRARY_DIR=$PWD/library CPATH=$PWD/library${CPATH:+:$CPATH} PYTHONPATH=$PWD/library/python${PYTHONPATH:+:$PYTHONPATH}
  if [ ! -e library/libpciguest.a ] && [ -e library/unproved/libpciguest.a ]; then
    PCIGUEST_LIBRARY_DIR=$PWD/library/unproved
    echo 'This library is not proved: library/unproved. `make library` proves it.' >&2
  fi
fi
export PCIGUEST_LIBRARY_DIR CPATH PYTHONPATH
