/* One part of a firmware that keeps keys, written as such sources are. `bench/common` puts as many of them behind one
   another as a text takes; `NN` in a name is the number of the part. */

enum slot_state_NN {
    SLOT_EMPTY_NN,
    SLOT_LOADED_NN,
    SLOT_LOCKED_NN = 4,
    SLOT_COUNT_NN = 8
};

struct slot_NN {
    uint32_t key[8];
    uint32_t uses;
    uint8_t state;
    uint8_t owner;
    uint16_t check;
};

struct request_NN {
    const uint8_t *data;
    uint32_t length;
    uint32_t slot;
    int flags;
};

static struct slot_NN slots_NN[SLOT_COUNT_NN];
static volatile uint32_t *const clock_control_NN = (volatile uint32_t *)0x40021000u;
static const uint8_t table_NN[16] = {
    0x63, 0x7c, 0x77, 0x7b, 0xf2, 0x6b, 0x6f, 0xc5,
    0x30, 0x01, 0x67, 0x2b, 0xfe, 0xd7, 0xab, 0x76,
};
static uint32_t failures_NN;

/* The sum of some bytes, each turned by its place. */
static uint16_t check_of_NN(const uint8_t *bytes, uint32_t count)
{
    uint32_t sum = 0xffffu;
    for (uint32_t i = 0; i < count; i++) {
        sum ^= (uint32_t)bytes[i] << (i % 8u);
        sum = (sum >> 1) | ((sum & 1u) << 15);
        if ((sum & 0x8000u) != 0u)
            sum ^= 0x1021u;
    }
    return (uint16_t)(sum & 0xffffu);
}

static void wait_for_clock_NN(uint32_t wanted)
{
    uint32_t left = 100000u;
    *clock_control_NN |= wanted;
    while ((*clock_control_NN & (wanted << 1)) == 0u && left > 0u) {
        left--;
    }
    if (left == 0u) {
        failures_NN += 1u; // the caller reads it
    }
}

static struct slot_NN *find_slot_NN(uint32_t number, int must_be_loaded)
{
    struct slot_NN *found = 0;
    if (number >= sizeof slots_NN / sizeof slots_NN[0]) {
        return 0;
    }
    found = &slots_NN[number];
    if (must_be_loaded && found->state != SLOT_LOADED_NN) {
        return 0;
    }
    return found;
}

/* Mixes four words of a block with a key. */
static void mix_NN(uint32_t block[4], const uint32_t *key)
{
    for (int round = 0; round < 10; ++round) {
        uint32_t a = block[0], b = block[1], c = block[2], d = block[3];
        a += key[round & 7] ^ (b << 7 | b >> 25);
        b -= (c & ~d) + 0x9e3779b9u * (uint32_t)round;
        c ^= table_NN[a & 15u] | (uint32_t)table_NN[b >> 28] << 24;
        d = d + (a ^ b) - (c > 0x7fffffffu ? 1u : 0u);
        block[0] = b;
        block[1] = c;
        block[2] = d;
        block[3] = a;
    }
}

static int load_key_NN(uint32_t number, const uint8_t *bytes, uint32_t length)
{
    struct slot_NN *slot = find_slot_NN(number, 0);
    if (slot == 0 || length != 32u) {
        failures_NN++;
        return -1;
    }
    if (slot->state == SLOT_LOCKED_NN)
        return -2;
    for (uint32_t i = 0; i < 8u; i++) {
        slot->key[i] = (uint32_t)bytes[4u * i] | (uint32_t)bytes[4u * i + 1u] << 8
            | (uint32_t)bytes[4u * i + 2u] << 16 | (uint32_t)bytes[4u * i + 3u] << 24;
    }
    slot->uses = 0;
    slot->check = check_of_NN(bytes, length);
    slot->state = SLOT_LOADED_NN;
    return 0;
}

static int answer_NN(const struct request_NN *request, uint32_t out[4])
{
    const struct slot_NN *slot = find_slot_NN(request->slot, 1);
    uint32_t done = 0;
    if (!slot)
        return -1;
    switch (request->flags & 3) {
    case 0:
        out[0] = out[1] = out[2] = out[3] = 0u;
        break;
    case 1:
    case 2:
        out[0] ^= request->length;
        break;
    default:
        return -3;
    }
    do {
        uint32_t part = request->length - done;
        if (part > 16u)
            part = 16u;
        for (uint32_t i = 0; i < part; i++) {
            out[i / 4u] ^= (uint32_t)request->data[done + i] << (8u * (i & 3u));
        }
        mix_NN(out, slot->key);
        done += part;
    } while (done < request->length);
    slots_NN[request->slot].uses++;
    return (int)(slot->uses & 0x7fffu);
}

int __attribute__((cmse_nonsecure_entry)) serve_NN(uint32_t number, uint32_t word)
{
    uint32_t block[4] = { word, word ^ 0x5a5a5a5au, ~word, 0u };
    uint8_t text[8] = "request";
    struct request_NN request = { text, 7u, number, (int)(word >> 30) };
    wait_for_clock_NN(1u << 16);
    if (word == 0u && load_key_NN(number, text, 8u) < 0) {
        return -1;
    }
    if (answer_NN(&request, block) < 0) {
        return (int)failures_NN;
    }
    return (int)(block[0] ^ block[1] ^ block[2] ^ block[3]);
}
