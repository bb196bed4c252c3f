/* For timing on a processor that is not x86-64; tools/native-archive compiles it. The module of `rt lib` takes the place of a large
   result as a first argument, as C does on x86-64. Elsewhere C has a register of its own for it, so a call goes through here. */
#include <stddef.h>
#include <stdint.h>

typedef struct { uint64_t number, word; } Answer;
typedef struct { uint64_t number, finding, replayed; Answer recorded, answered; } Verdict;

void *milebeacon_replay_at(
    Verdict *place,
    uint64_t *header, size_t header_len, uint64_t *wallets, size_t wallets_len, uint64_t *escrows, size_t escrows_len,
    uint64_t *receipts, size_t receipts_len, uint64_t *journal, size_t journal_len, const uint8_t *recording, size_t recording_len);

Verdict milebeacon_replay(
    uint64_t *header, size_t header_len, uint64_t *wallets, size_t wallets_len, uint64_t *escrows, size_t escrows_len,
    uint64_t *receipts, size_t receipts_len, uint64_t *journal, size_t journal_len, const uint8_t *recording, size_t recording_len)
{
    Verdict verdict;
    milebeacon_replay_at(&verdict, header, header_len, wallets, wallets_len, escrows, escrows_len,
        receipts, receipts_len, journal, journal_len, recording, recording_len);
    return verdict;
}
