OPENQASM 3.0;
include "stdgates.inc";

// three qubits alike: 000 or 111
qubit[3] q;
bit[3] c;

h q[0];
cx q[0], q[1];
cx q[1], q[2];
c = measure q;
