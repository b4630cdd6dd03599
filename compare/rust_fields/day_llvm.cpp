// day_llvm STREAM TIMES [all|leaf]: day_ours with LLVM's CodeView library, what llvm-pdbutil stands on. `leaf` deserializes the classes, unions and
// enumerations, `all` every record of the walk; members are visited as they are deserialized. The sum is that of day_ours.
#include "llvm/DebugInfo/CodeView/CVTypeVisitor.h"
#include "llvm/DebugInfo/CodeView/LazyRandomTypeCollection.h"
#include "llvm/DebugInfo/CodeView/TypeDeserializer.h"
#include "llvm/DebugInfo/CodeView/TypeRecord.h"
#include "llvm/DebugInfo/CodeView/TypeVisitorCallbacks.h"
#include "llvm/Support/BinaryByteStream.h"
#include "llvm/Support/BinaryStreamReader.h"
#include "llvm/Support/Error.h"
#include <chrono>
#include <cinttypes>
#include <cstdint>
#include <cstdio>
#include <cstdlib>
#include <cstring>
#include <vector>

using namespace llvm;
using namespace llvm::codeview;

static uint64_t text(StringRef name) { return name.size() + (name.empty() ? 0 : static_cast<uint8_t>(name[0])); }

// A value of an enumerator is an APSInt of some width: its 64 bits, as unsigned forms are written.
static uint64_t bits(const APSInt &value) { return value.isSigned() ? static_cast<uint64_t>(value.getSExtValue()) : value.getZExtValue(); }

struct Members : TypeVisitorCallbacks {
    uint64_t members = 0, sum = 0;
    Error add(uint64_t n)
    {
        members++;
        sum += n;
        return Error::success();
    }
    Error visitKnownMember(CVMemberRecord &, DataMemberRecord &m) override { return add(text(m.Name) + m.Type.getIndex() + m.FieldOffset); }
    Error visitKnownMember(CVMemberRecord &, StaticDataMemberRecord &m) override { return add(text(m.Name) + m.Type.getIndex()); }
    Error visitKnownMember(CVMemberRecord &, EnumeratorRecord &m) override { return add(text(m.Name) + bits(m.Value)); }
    Error visitKnownMember(CVMemberRecord &, OneMethodRecord &m) override { return add(text(m.Name) + m.Type.getIndex()); }
    Error visitKnownMember(CVMemberRecord &, OverloadedMethodRecord &m) override { return add(text(m.Name) + m.MethodList.getIndex()); }
    Error visitKnownMember(CVMemberRecord &, NestedTypeRecord &m) override { return add(text(m.Name) + m.Type.getIndex()); }
    Error visitKnownMember(CVMemberRecord &, BaseClassRecord &m) override { return add(m.Type.getIndex() + m.Offset); }
    Error visitKnownMember(CVMemberRecord &, VirtualBaseClassRecord &) override { return add(0); }
    Error visitKnownMember(CVMemberRecord &, VFPtrRecord &) override { return add(0); }
};

// Every record of the walk deserialized, and nothing done with it.
struct Nothing : TypeVisitorCallbacks {
};

static uint64_t types, members, sum;

static void day(ArrayRef<uint8_t> records, uint32_t count, bool leaf)
{
    types = members = sum = 0;
    CVTypeArray array;
    BinaryByteStream stream(records, support::little);
    BinaryStreamReader reader(stream);
    cantFail(reader.readArray(array, reader.getLength()));
    LazyRandomTypeCollection found(array, count);
    Nothing nothing;
    for (auto index = found.getFirst(); index; index = found.getNext(*index)) {
        CVType record = found.getType(*index);
        if (!leaf)
            cantFail(visitTypeRecord(record, nothing));
        TypeIndex fields;
        StringRef name;
        switch (record.kind()) {
        case LF_CLASS:
        case LF_STRUCTURE: {
            ClassRecord r;
            cantFail(TypeDeserializer::deserializeAs(record, r));
            if (r.FieldList.isNoneType())
                continue;
            fields = r.FieldList, name = r.Name;
            break;
        }
        case LF_UNION: {
            UnionRecord r;
            cantFail(TypeDeserializer::deserializeAs(record, r));
            if (r.isForwardRef())
                continue;
            fields = r.FieldList, name = r.Name;
            break;
        }
        case LF_ENUM: {
            EnumRecord r;
            cantFail(TypeDeserializer::deserializeAs(record, r));
            if (r.isForwardRef())
                continue;
            fields = r.FieldList, name = r.Name;
            break;
        }
        default:
            continue;
        }
        types++;
        sum += text(name);
        CVType list = found.getType(fields);
        FieldListRecord r;
        cantFail(TypeDeserializer::deserializeAs(list, r));
        Members callbacks;
        cantFail(visitMemberRecordStream(r.Data, callbacks));
        members += callbacks.members;
        sum += callbacks.sum;
    }
}

int main(int argc, char **argv)
{
    FILE *file = argc < 3 ? nullptr : fopen(argv[1], "rb");
    if (file == nullptr) {
        fputs("usage: day_llvm STREAM TIMES [all|leaf]\n", stderr);
        return 2;
    }
    std::vector<uint8_t> stream;
    uint8_t part[65536];
    for (size_t n; (n = fread(part, 1, sizeof part, file)) > 0;)
        stream.insert(stream.end(), part, part + n);
    uint32_t header[4];
    memcpy(header, stream.data(), sizeof header);
    long times = strtol(argv[2], nullptr, 10);
    bool leaf = argc > 3 && strcmp(argv[3], "leaf") == 0;
    auto start = std::chrono::steady_clock::now();
    for (long k = 0; k < times; k++)
        day(ArrayRef<uint8_t>(stream).drop_front(header[1]), header[3] - header[2], leaf);
    double took = std::chrono::duration<double, std::micro>(std::chrono::steady_clock::now() - start).count();
    printf("types=%" PRIu64 " members=%" PRIu64 " sum=%" PRIu64 "\n", types, members, sum);
    fprintf(stderr, "%.1f microseconds a day\n", took / static_cast<double>(times < 1 ? 1 : times));
    return 0;
}
