// A function of Octave; Matlab's MEX files differ in the first and the last lines:
// mkoctfile -Ibindings/c examples/other/um_receive.cc dist/x86_64-linux/libum.a
#include <octave/oct.h>
#include "um.h"

DEFUN_DLD (um_receive, args, , "[accepted, octets, wrong, tsc] = um_receive (soft), of 4 x 148 soft bits from -127 to 127")
{
  if (args.length () != 1 || args(0).rows () != 4 || args(0).columns () != 148)
    error ("um_receive: expected 4 x 148 soft bits");
  const int8NDArray values = args(0).int8_array_value ();
  int8_t soft[4][148];
  for (int b = 0; b < 4; b++)
    for (int i = 0; i < 148; i++)
      soft[b][i] = values(b, i).value ();
  um_block_report report;
  if (!um_receive_block (soft, &report))
    error ("um_receive: a soft bit is -128");
  uint8NDArray octets (dim_vector (1, 23));
  for (int i = 0; i < 23; i++)
    octets(i) = report.octets[i];
  return ovl (report.accepted == 1, octets, double (report.wrong_coded), double (report.tsc));
}
