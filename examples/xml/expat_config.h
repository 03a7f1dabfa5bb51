/* What expat's configure would write for a guest. There is no source of chance: expat wants to be
   told that by XML_POOR_ENTROPY, and would ask the clock. xml.c gives each parser its salt, so that
   it asks nobody. */
#define BYTEORDER 1234
#define XML_NS 1
#define XML_DTD 1
#define XML_CONTEXT_BYTES 1024
#define XML_POOR_ENTROPY 1
