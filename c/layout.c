/*
 * The symbol that stands for the layouts of this library. Its name has the first two numbers of the version, since before
 * 1.0 a new second number may change a layout. The build of each processor has it.
 */
#include "encoding_text.h"

void encoding_text_layout_0_1(void)
{
}
