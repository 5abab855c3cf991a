"""What tools/pcap.py, tools/prove.py and tools/serve.sh are made of."""
