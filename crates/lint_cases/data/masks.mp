DS 1 1 1; 9 cell;
L NM; B 4 4 2 2;
DF; C 1; E
