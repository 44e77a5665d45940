// The bare parse of one page by three XML libraries: whether the page is well-formed XML, and nothing done with what it says.
// pugixml and libxml2 build their tree; expat calls no handler, and its parser is made once and reset.
#include <cstddef>
#include <expat.h>
#include <libxml/parser.h>
#include <pugixml.hpp>

extern "C" int peer_pugixml(const char *page, size_t length) {
    pugi::xml_document tree;
    return tree.load_buffer(page, length, pugi::parse_default, pugi::encoding_latin1) ? 1 : 0;
}

extern "C" int peer_expat(const char *page, size_t length) {
    static XML_Parser parser = XML_ParserCreate("ISO-8859-1");
    XML_ParserReset(parser, "ISO-8859-1");
    return XML_Parse(parser, page, static_cast<int>(length), 1) == XML_STATUS_OK ? 1 : 0;
}

extern "C" int peer_libxml2(const char *page, size_t length) {
    const int quiet = XML_PARSE_NOERROR | XML_PARSE_NOWARNING | XML_PARSE_NONET | XML_PARSE_COMPACT;
    xmlDocPtr tree = xmlReadMemory(page, static_cast<int>(length), nullptr, "ISO-8859-1", quiet);
    xmlFreeDoc(tree);
    return tree != nullptr ? 1 : 0;
}
