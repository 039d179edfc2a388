#!/usr/bin/env bash
# Real clients post the six calls to `session`, over a socket whose other end is the program's input and output: curl and Python's
# http.client, with envelopes as Axis and gSOAP write them, and Python's zeep and gSOAP in C++, which know `examples/os.wsdl` alone.
# Each must get its answer, a fault too. It installs them.
#   bash tools/real_clients.sh
. "$(dirname "$0")/program.sh"
install_packages curl python3-zeep gsoap libgsoap-dev g++
folder=$(mktemp -d) || exit
trap 'rm -r "$folder"' EXIT

# Makes a client of the WSDL.
build_client() {
    wsdl2h -Nos -o "$folder/os.h" examples/os.wsdl && soapcpp2 -j -C -L -w -x -d "$folder" "$folder/os.h" &&
        g++ -O1 -I "$folder" -o "$folder/client" tools/gsoap_client.cpp "$folder"/soap*.cpp -lgsoap++
}

build_client >"$folder/log" 2>&1 || { cat "$folder/log"; exit 1; }
/usr/bin/python3 tools/real_clients.py "$folder/client" # Debian's own Python, which has Debian's zeep
