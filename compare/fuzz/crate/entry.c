/* The entry of a target against the crate, which one -DENTRY=.. says, and the names of primitives for it. */
#include "law.h"
#include "pdb_names.h"

const char *kind_name(uint32_t number);
const char *indirection_name(uint32_t number);
void ENTRY(const uint8_t *at, size_t n);

const char *kind_name(uint32_t number)
{
    return pdb_kind_name(number);
}

const char *indirection_name(uint32_t number)
{
    return pdb_indirection_name(number);
}

int LLVMFuzzerTestOneInput(const uint8_t *data, size_t size)
{
    if (size <= 8192)
        ENTRY(data, size);
    return 0;
}
