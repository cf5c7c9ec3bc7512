/* A recognizer of card M's language over one string in memory, around the parser that peg makes of m.peg. */

#include <stddef.h>
#include <string.h>

#define YY_CTX_LOCAL
#define YY_CTX_MEMBERS const char *input; int length;
#define YY_INPUT(yy, buf, result, max_size)                              \
  {                                                                      \
    result = (yy)->length < (max_size) ? (yy)->length : (max_size);      \
    memcpy((buf), (yy)->input, result);                                  \
    (yy)->input += result;                                               \
    (yy)->length -= result;                                              \
  }

#include "m.parser.inc"

/* The context's buffers are kept from call to call; what was read before is forgotten. */
int pegm_accepts(const char *input, size_t length)
{
  static yycontext context;
  context.input = input;
  context.length = (int)length;
  context.__pos = context.__limit = 0;
  return yyparse(&context);
}
