// Lays out a JSON text with four spaces a level. Numerals are kept as they are spelled, in the document too.
#ifdef __SSE2__
#define RAPIDJSON_SSE2
#endif
#include <rapidjson/document.h>
#include <rapidjson/filewritestream.h>
#include <rapidjson/prettywriter.h>
#include <cstdio>
#include <fstream>
#include <string>

using namespace rapidjson;

// The document has no kind for a numeral as it is spelled: it is kept as a string behind a byte that begins no string in UTF-8.
const char MARK = '\xff';

// Hands on what is read to the document. Numerals come as RawNumber.
struct Filler {
    Document &document;
    std::string numeral;

    bool Null() { return document.Null(); }
    bool Bool(bool b) { return document.Bool(b); }
    bool Int(int) { return false; }
    bool Uint(unsigned) { return false; }
    bool Int64(int64_t) { return false; }
    bool Uint64(uint64_t) { return false; }
    bool Double(double) { return false; }
    bool RawNumber(const char *text, SizeType length, bool) {
        numeral.assign(1, MARK).append(text, length);
        return document.String(numeral.data(), SizeType(numeral.size()), true);
    }
    bool String(const char *text, SizeType length, bool copy) { return document.String(text, length, copy); }
    bool StartObject() { return document.StartObject(); }
    bool Key(const char *text, SizeType length, bool copy) { return document.Key(text, length, copy); }
    bool EndObject(SizeType count) { return document.EndObject(count); }
    bool StartArray() { return document.StartArray(); }
    bool EndArray(SizeType count) { return document.EndArray(count); }
};

struct Generator {
    const std::string &text;
    bool fine;

    bool operator()(Document &document) {
        Filler filler{document, {}};
        StringStream stream(text.c_str());
        Reader reader;
        fine = !reader.Parse<kParseNumbersAsStringsFlag | kParseValidateEncodingFlag>(stream, filler).IsError();
        return fine;
    }
};

// Writes a marked string as a numeral.
struct Layout : PrettyWriter<FileWriteStream> {
    using PrettyWriter<FileWriteStream>::PrettyWriter;

    bool String(const char *text, SizeType length, bool copy = false) {
        if (length > 0 && text[0] == MARK) {
            return RawValue(text + 1, length - 1, kNumberType);
        }
        return PrettyWriter<FileWriteStream>::String(text, length, copy);
    }
    bool Key(const char *text, SizeType length, bool copy = false) {
        return PrettyWriter<FileWriteStream>::String(text, length, copy);
    }
};

static std::string text_of(const char *name) {
    std::ifstream file(name, std::ios::binary | std::ios::ate);
    std::string text(file ? size_t(file.tellg()) : 0, '\0');
    file.seekg(0);
    file.read(&text[0], std::streamsize(text.size()));
    return text;
}

int main(int count, char **words) {
    if (count != 2) {
        return 2;
    }
    Document document;
    {
        std::string text = text_of(words[1]);
        Generator generator{text, false};
        document.Populate(generator);
        if (!generator.fine) {
            return 1;
        }
    }
    static char buffer[65536];
    FileWriteStream stream(stdout, buffer, sizeof buffer);
    Layout layout(stream);
    layout.SetIndent(' ', 4);
    document.Accept(layout);
    stream.Put('\n');
    stream.Flush();
    return 0;
}
