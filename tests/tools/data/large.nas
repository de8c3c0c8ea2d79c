$ large field; the nodes are those that the elements name
CROD*                  1               1               2               1
CTRIA3*                2               1               3               1
*                      2
CQUAD4*                3               1               4               1
*                      3               2
CTETRA*                4               1               5               2
*                      4               3
CPYRAM*                5               1               1               2
*                      3               4               5
CPENTA*                6               1               6               1
*                      5               2               4               3
CHEXA*                 7               1               8               7
*                      6               5               4               3
*                      2               1
CTRIA6*                8               1               3               4
*                      5               6               7               8
CQUAD8*                9               1              12               5
*                     11               6              10               7
*                      9               8
CTETRA*               10               1               1               2
*                      3               4               9              10
*                     11              12               5               6
