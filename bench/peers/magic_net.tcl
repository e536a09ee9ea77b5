# Extracts the network of switches of a CIF file: CIF=my magic -dnull -noconsole -T nmos.tech magic_net.tcl
cif istyle lambda=2.5
cif read $env(CIF)
extract all
quit -noprompt
