#!/bin/sh
# two sockets, one gigabyte on each
dpdk-testpmd -l 0-3 -n 4 --socket-mem 1024,1024 --file-prefix=pmd0 -a 0000:06:00.0 -- -i --nb-cores=2 --total-num-mbufs=262144
