//! The inputs of docs/DIFFERENCES.md, section "The Rust against the RFCs": what the page says of
//! them against the Rust and the proved library.

use std::collections::BTreeSet;

use compare::cases::Comparison;
use compare::layout::Layout;
use compare::native::{self, Area};
use compare::random::Random;
use compare::{model, shown, tapes};

/// The page.
const PAGE: &str = include_str!("../../docs/DIFFERENCES.md");

/// The place of the first octet of every input.
const BASE: u32 = 100;

/// The inputs, each with its registry, and below it what is shown: the records in their order,
/// each with its octets and the number that it has. An `entry` is an object with its type and its
/// length; `/4` and `/5` name the registry of an inner walk. The array of the area is left out.
const CASES: &str = "
0: FF 00
    entry 100-102, value 102-102
0: 12 03 00 00
    raw 100-104
0: 12
    raw 100-101
0: FF F3 00*243
    entry 100-345, value 102-345
0: 12 03 00 00 01 12 03 00 00 02
    entry 100-105, te_default_metric 102-105 = 1
    entry 105-110, te_default_metric 107-110 = 2

0: 03 05 00 00 00 01 FF
    entry 100-107, admin_group 102-106 = 1, raw 106-107
0: 03 03 00 00 01
    entry 100-105, value 102-105
0: 04 09 00 00 00 01 00 00 00 02 FF
    entry 100-111, local_identifier 102-106 = 1, remote_identifier 106-110 = 2, raw 110-111
0: 04 07 00 00 00 01 00 00 00
    entry 100-109, value 102-109
0: 06 05 0A 00 00 01 FF
    entry 100-107, ipv4_interface_address 102-106, raw 106-107
0: 06 03 0A 00 00
    entry 100-105, value 102-105
0: 08 05 0A 00 00 02 FF
    entry 100-107, ipv4_neighbor_address 102-106, raw 106-107
0: 08 03 0A 00 00
    entry 100-105, value 102-105
0: 09 05 3F 80 00 00 FF
    entry 100-107, max_bandwidth 102-106 = 1065353216, raw 106-107
0: 09 03 3F 80 00
    entry 100-105, value 102-105
0: 0A 05 3F 80 00 00 FF
    entry 100-107, max_reservable_bandwidth 102-106 = 1065353216, raw 106-107
0: 0A 03 3F 80 00
    entry 100-105, value 102-105
0: 0B 21 00*31 07 FF
    entry 100-135, unreserved_bandwidth 102-134
    bandwidth_element 102-106 = 0, bandwidth_element 106-110 = 0
    bandwidth_element 110-114 = 0, bandwidth_element 114-118 = 0
    bandwidth_element 118-122 = 0, bandwidth_element 122-126 = 0
    bandwidth_element 126-130 = 0, bandwidth_element 130-134 = 7, raw 134-135
0: 0B 1F 00*31
    entry 100-133, value 102-133
0: 0C 11 00*16 FF
    entry 100-119, ipv6_interface_address 102-118, raw 118-119
0: 0C 0F 00*15
    entry 100-117, value 102-117
0: 0D 11 00*16 FF
    entry 100-119, ipv6_neighbor_address 102-118, raw 118-119
0: 0D 0F 00*15
    entry 100-117, value 102-117
0: 12 04 00 00 0A FF
    entry 100-106, te_default_metric 102-105 = 10, raw 105-106
0: 12 02 00 0A
    entry 100-104, value 102-104
0: 1F 07 00 00 00 00 00 07 FF
    entry 100-109, flags 102-103 = 0, weight 103-104 = 0, sid 104-108 = 7, raw 108-109
0: 1F 04 30 00 00 07
    entry 100-106, value 102-106
0: 20 0D 00 00 01 02 03 04 05 06 00 00 00 07 FF
    entry 100-115, flags 102-103 = 0, weight 103-104 = 0, neighbor_system_id 104-110
    sid 110-114 = 7, raw 114-115
0: 20 0A 30 00 01 02 03 04 05 06 00 07
    entry 100-112, value 102-112
0: 21 05 80 00 00 01 FF
    entry 100-107, anomalous 102-103 = 1, delay 103-106 = 1, raw 106-107
0: 21 03 80 00 00
    entry 100-105, value 102-105
0: 22 09 80 00 00 01 00 00 00 02 FF
    entry 100-111, anomalous 102-103 = 1, min_delay 103-106 = 1, max_delay 107-110 = 2, raw 110-111
0: 22 07 80 00 00 01 00 00 00
    entry 100-109, value 102-109
0: 23 05 00 00 00 01 FF
    entry 100-107, delay_variation 103-106 = 1, raw 106-107
0: 23 03 00 00 00
    entry 100-105, value 102-105
0: 24 05 80 00 00 01 FF
    entry 100-107, anomalous 102-103 = 1, link_loss 103-106 = 1, raw 106-107
0: 24 03 80 00 00
    entry 100-105, value 102-105
0: 25 05 3F 80 00 00 FF
    entry 100-107, bandwidth 102-106 = 1065353216, raw 106-107
0: 25 03 3F 80 00
    entry 100-105, value 102-105
0: 26 05 3F 80 00 00 FF
    entry 100-107, bandwidth 102-106 = 1065353216, raw 106-107
0: 26 03 3F 80 00
    entry 100-105, value 102-105
0: 27 05 3F 80 00 00 FF
    entry 100-107, bandwidth 102-106 = 1065353216, raw 106-107
0: 27 03 3F 80 00
    entry 100-105, value 102-105
0: 2B 15 00*21
    entry 100-123, flags 102-103 = 0, algorithm 103-104 = 0, weight 104-105 = 0
    endpoint_behavior 105-107 = 0, srv6_sid 107-123
0: 2B 14 00*20
    entry 100-122, value 102-122
0: 2C 1B 00*27
    entry 100-129, neighbor_system_id 102-108, flags 108-109 = 0, algorithm 109-110 = 0
    weight 110-111 = 0, endpoint_behavior 111-113 = 0, srv6_sid 113-129
0: 2C 1A 00*26
    entry 100-128, value 102-128

0: 04 08 00 00 00 01 00 00 00 02 04 08 00 00 00 03 00 00 00 04
    entry 100-110, local_identifier 102-106 = 1, remote_identifier 106-110 = 2
    entry 110-120, local_identifier 112-116 = 3, remote_identifier 116-120 = 4
0: 04 08 00 00 00 01 00 00 00 00
    entry 100-110, local_identifier 102-106 = 1, remote_identifier 106-110 = 0
0: 06 08 0A 00 00 01 0A 00 00 02
    entry 100-110, ipv4_interface_address 102-106, raw 106-110
0: 0C 10 FE 80 00*13 01
    entry 100-118, ipv6_interface_address 102-118
0: 09 04 7F 80 00 00
    entry 100-106, max_bandwidth 102-106 = 2139095040
0: 09 04 BF 80 00 00
    entry 100-106, max_bandwidth 102-106 = 3212836864
0: 1F 05 00 00 00 00 07
    entry 100-107, flags 102-103 = 0, weight 103-104 = 0, sid 104-107 = 7
0: 1F 06 30 00 00 00 10 00
    entry 100-108, flags 102-103 = 48, weight 103-104 = 0, sid 104-108 = 4096
0: 1F 05 20 00 00 00 07
    entry 100-107, flags 102-103 = 32, weight 103-104 = 0, sid 104-107 = 7
0: 1F 06 10 00 00 00 00 07
    entry 100-108, flags 102-103 = 16, weight 103-104 = 0, sid 104-108 = 7
0: 1F 05 33 00 00 00 07
    entry 100-107, flags 102-103 = 51, weight 103-104 = 0, sid 104-107 = 7
0: 20 0B 00 00 01 02 03 04 05 06 00 00 07
    entry 100-113, flags 102-103 = 0, weight 103-104 = 0, neighbor_system_id 104-110
    sid 110-113 = 7
0: 20 0C 30 00 01 02 03 04 05 06 00 00 10 00
    entry 100-114, flags 102-103 = 48, weight 103-104 = 0, neighbor_system_id 104-110
    sid 110-114 = 4096
0: 20 0B 20 00 01 02 03 04 05 06 00 00 07
    entry 100-113, flags 102-103 = 32, weight 103-104 = 0, neighbor_system_id 104-110
    sid 110-113 = 7
0: 20 0D 30 00 01 02 03 04 05 06 07 08 00 00 07
    entry 100-115, flags 102-103 = 48, weight 103-104 = 0, neighbor_system_id 104-110
    sid 110-114 = 117964800, raw 114-115
0: 21 04 7F 00 00 01
    entry 100-106, anomalous 102-103 = 0, delay 103-106 = 1
0: 24 04 7F 00 00 01
    entry 100-106, anomalous 102-103 = 0, link_loss 103-106 = 1
0: 22 08 7F 00 00 01 FF 00 00 02
    entry 100-110, anomalous 102-103 = 0, min_delay 103-106 = 1, max_delay 107-110 = 2
0: 23 04 FF 00 00 01
    entry 100-106, delay_variation 103-106 = 1
0: 21 04 00 FF FF FF
    entry 100-106, anomalous 102-103 = 0, delay 103-106 = 16777215
0: 22 08 00 00 00 02 00 00 00 01
    entry 100-110, anomalous 102-103 = 0, min_delay 103-106 = 2, max_delay 107-110 = 1
0: 23 04 00 00 00 00
    entry 100-106, delay_variation 103-106 = 0
0: 24 04 00 FF FF FF
    entry 100-106, anomalous 102-103 = 0, link_loss 103-106 = 16777215
0: 2B 16 00*21 01
    entry 100-124, flags 102-103 = 0, algorithm 103-104 = 0, weight 104-105 = 0
    endpoint_behavior 105-107 = 0, srv6_sid 107-123, raw 123-124
0: 2C 1C 00*27 01
    entry 100-130, neighbor_system_id 102-108, flags 108-109 = 0, algorithm 109-110 = 0
    weight 110-111 = 0, endpoint_behavior 111-113 = 0, srv6_sid 113-129, raw 129-130
0: 2B 17 00*22 FF
    entry 100-125, flags 102-103 = 0, algorithm 103-104 = 0, weight 104-105 = 0
    endpoint_behavior 105-107 = 0, srv6_sid 107-123, raw 124-125
0: 2B 16 1F 00*21
    entry 100-124, flags 102-103 = 31, algorithm 103-104 = 0, weight 104-105 = 0
    endpoint_behavior 105-107 = 0, srv6_sid 107-123
0: 2B 16 00*4 01 00*17
    entry 100-124, flags 102-103 = 0, algorithm 103-104 = 0, weight 104-105 = 0
    endpoint_behavior 105-107 = 1, srv6_sid 107-123
0: 0F 02 01 05
    entry 100-104, value 102-104
0: 14 02 02 00
    entry 100-104, value 102-104
0: 15 24 96 08 00*34
    entry 100-138, value 102-138
0: 18 04 00 00 FD E8
    entry 100-106, value 102-106
0: 19 04 0A 00 00 01
    entry 100-106, value 102-106
0: 1A 10 00*16
    entry 100-118, value 102-118
0: 2D 10 00*16
    entry 100-118, value 102-118

1: 01 05 00 00 00 07 FF
    entry 100-107, tags 102-106, tag 102-106 = 7, raw 106-107
1: 01 00
    entry 100-102, value 102-102
1: 01 03 00 00 07
    entry 100-105, value 102-105
1: 02 09 00*7 07 FF
    entry 100-111, tags 102-110, tag64 102-110 = 7, raw 110-111
1: 02 07 00*6 07
    entry 100-109, value 102-109
1: 01 04 00 00 00 00
    entry 100-106, tags 102-106, tag 102-106 = 0
1: 02 08 00*8
    entry 100-110, tags 102-110, tag64 102-110 = 0
1: 01 08 00 00 00 07 00 00 00 08
    entry 100-110, tags 102-110, tag 102-106 = 7, tag 106-110 = 8
1: 03 07 00 00 00 00 00 07 FF
    entry 100-109, flags 102-103 = 0, algorithm 103-104 = 0, sid 104-108 = 7, raw 108-109
1: 03 04 0C 00 00 07
    entry 100-106, value 102-106
1: 03 05 00 00 0F 42 40
    entry 100-107, flags 102-103 = 0, algorithm 103-104 = 0, sid 104-107 = 1000000
1: 03 06 0C 00 00 00 10 00
    entry 100-108, flags 102-103 = 12, algorithm 103-104 = 0, sid 104-108 = 4096
1: 03 05 08 00 00 00 07
    entry 100-107, flags 102-103 = 8, algorithm 103-104 = 0, sid 104-107 = 7
1: 03 06 04 00 00 00 00 07
    entry 100-108, flags 102-103 = 4, algorithm 103-104 = 0, sid 104-108 = 7
1: 03 05 0F 00 00 00 07
    entry 100-107, flags 102-103 = 15, algorithm 103-104 = 0, sid 104-107 = 7
1: 03 06 00 80 00 00 00 07
    entry 100-108, flags 102-103 = 0, algorithm 103-104 = 128, sid 104-108 = 7
1: 03 06 C0 00 00 00 00 07 04 01 00
    entry 100-108, flags 102-103 = 192, algorithm 103-104 = 0, sid 104-108 = 7
    entry 108-111, flags 110-111 = 0, flag_x 110-111 = 0, flag_r 110-111 = 0, flag_n 110-111 = 0
1: 04 00
    entry 100-102, value 102-102
1: 04 02 00 80
    entry 100-104, flags 102-103 = 0, flag_x 102-103 = 0, flag_r 102-103 = 0, flag_n 102-103 = 0
    raw 103-104
1: 04 01 18
    entry 100-103, flags 102-103 = 24, flag_x 102-103 = 0, flag_r 102-103 = 0, flag_n 102-103 = 0
1: 04 01 A0
    entry 100-103, flags 102-103 = 160, flag_x 102-103 = 1, flag_r 102-103 = 0, flag_n 102-103 = 1
1: 05 13 00*19
    entry 100-121, flags 102-103 = 0, endpoint_behavior 103-105 = 0, srv6_sid 105-121
1: 05 12 00*18
    entry 100-120, value 102-120
1: 05 14 00*19 01
    entry 100-122, flags 102-103 = 0, endpoint_behavior 103-105 = 0, srv6_sid 105-121, raw 121-122
1: 05 15 00*19 01 FF
    entry 100-123, flags 102-103 = 0, endpoint_behavior 103-105 = 0, srv6_sid 105-121
    sub_tlvs/4 122-122, raw 122-123
1: 05 15 00*20 FF
    entry 100-123, flags 102-103 = 0, endpoint_behavior 103-105 = 0, srv6_sid 105-121, raw 122-123
1: 05 14 FF 00*19
    entry 100-122, flags 102-103 = 255, endpoint_behavior 103-105 = 0, srv6_sid 105-121
1: 05 14 00 00 05 00*17
    entry 100-122, flags 102-103 = 0, endpoint_behavior 103-105 = 5, srv6_sid 105-121
1: 05 14 00*20
    entry 100-122, flags 102-103 = 0, endpoint_behavior 103-105 = 0, srv6_sid 105-121
1: 0B 05 0A 00 00 01 FF
    entry 100-107, ipv4_source_router_id 102-106, raw 106-107
1: 0B 03 0A 00 00
    entry 100-105, value 102-105
1: 0C 11 00*16 FF
    entry 100-119, ipv6_source_router_id 102-118, raw 118-119
1: 0C 0F 00*15
    entry 100-117, value 102-117

2: 02 01 00
    entry 100-103, flags 102-103 = 0, ranges 103-103
2: 16 01 00
    entry 100-103, flags 102-103 = 0, ranges 103-103
2: 02 00
    entry 100-102, value 102-102
2: 16 00
    entry 100-102, value 102-102
2: 02 09 00 00 00 00 01 03 00 00 10
    entry 100-111, flags 102-103 = 0, ranges 103-111, range 103-111
    range_size 103-106 = 0, range_sid 108-111 = 16
2: 16 09 00 00 00 00 01 03 00 00 10
    entry 100-111, flags 102-103 = 0, ranges 103-111, range 103-111
    range_size 103-106 = 0, range_sid 108-111 = 16
2: 02 0B 00 00 00 01 01 05 00 00 00 10 FF
    entry 100-113, flags 102-103 = 0, ranges 103-103, raw 103-113
2: 02 09 00 00 00 01 02 03 00 00 10
    entry 100-111, flags 102-103 = 0, ranges 103-103, raw 103-111
2: 16 0A 00 00 00 01 01 03 00 00 10 FF
    entry 100-112, flags 102-103 = 0, ranges 103-111, range 103-111
    range_size 103-106 = 1, range_sid 108-111 = 16, raw 111-112
2: 02 11 00 00 00 02 01 03 00 00 10 00 00 02 01 03 00 00 11
    entry 100-119, flags 102-103 = 0, ranges 103-119
    range 103-111, range_size 103-106 = 2, range_sid 108-111 = 16
    range 111-119, range_size 111-114 = 2, range_sid 116-119 = 17
2: 02 01 80 02 01 40
    entry 100-103, flags 102-103 = 128, ranges 103-103
    entry 103-106, flags 105-106 = 64, ranges 106-106
2: 16 01 00 16 01 01
    entry 100-103, flags 102-103 = 0, ranges 103-103
    entry 103-106, flags 105-106 = 1, ranges 106-106
2: 02 01 3F
    entry 100-103, flags 102-103 = 63, ranges 103-103
2: 16 01 FF
    entry 100-103, flags 102-103 = 255, ranges 103-103
2: 0B 05 0A 00 00 01 FF
    entry 100-107, ipv4_te_router_id 102-106, raw 106-107
2: 0B 03 0A 00 00
    entry 100-105, value 102-105
2: 0C 11 00*16 FF
    entry 100-119, ipv6_te_router_id 102-118, raw 118-119
2: 0C 0F 00*15
    entry 100-117, value 102-117
2: 13 00
    entry 100-102, algorithms 102-102
2: 13 01 01
    entry 100-103, algorithms 102-103, algorithm_element 102-103 = 1
2: 13 01 00 13 01 01
    entry 100-103, algorithms 102-103, algorithm_element 102-103 = 0
    entry 103-106, algorithms 105-106, algorithm_element 105-106 = 1
2: 17 00
    entry 100-102, msds 102-102
2: 17 01 01
    entry 100-103, msds 102-102, raw 102-103
2: 17 03 01 05 02
    entry 100-105, msds 102-104, msd 102-104, msd_type 102-103 = 1, msd_value 103-104 = 5
    raw 104-105
2: 17 02 00 05
    entry 100-104, msds 102-104, msd 102-104, msd_type 102-103 = 0, msd_value 103-104 = 5
2: 17 02 01 00
    entry 100-104, msds 102-104, msd 102-104, msd_type 102-103 = 1, msd_value 103-104 = 0
2: 17 04 01 05 01 06
    entry 100-106, msds 102-106, msd 102-104, msd_type 102-103 = 1, msd_value 103-104 = 5
    msd 104-106, msd_type 104-105 = 1, msd_value 105-106 = 6
2: 18 02 05 FF
    entry 100-104, preference 102-103 = 5, raw 103-104
2: 18 00
    entry 100-102, value 102-102
2: 18 01 05 18 01 06
    entry 100-103, preference 102-103 = 5
    entry 103-106, preference 105-106 = 6
2: 19 01 40
    entry 100-103, value 102-103
2: 19 02 BF FF
    entry 100-104, srv6_flags 102-104 = 49151
2: 19 04 00 00 01 00
    entry 100-106, srv6_flags 102-104 = 0, sub_tlvs/5 104-106, entry/5 104-106, value/5 106-106
2: 19 03 00 00 FF
    entry 100-105, srv6_flags 102-104 = 0, sub_tlvs/5 104-104, raw/5 104-105

3: 01 05 00 00 00 07 FF
    entry 100-107, sid 102-106 = 7, raw 106-107
3: 01 02 00 07
    entry 100-104, value 102-104
3: 01 03 00 00 10 03 06 00 00 00 00 00 07
    entry 100-105, sid 102-105 = 16
    entry 105-113, flags 107-108 = 0, algorithm 108-109 = 0, sid 109-113 = 7
3: 03 07 00 00 00 00 00 07 FF
    entry 100-109, flags 102-103 = 0, algorithm 103-104 = 0, sid 104-108 = 7, raw 108-109
3: 03 04 0C 00 00 07
    entry 100-106, value 102-106
3: 03 05 00 00 00 00 07
    entry 100-107, flags 102-103 = 0, algorithm 103-104 = 0, sid 104-107 = 7
3: 03 06 0C 00 00 00 10 00
    entry 100-108, flags 102-103 = 12, algorithm 103-104 = 0, sid 104-108 = 4096
3: 03 06 BF 00 00 00 00 07
    entry 100-108, flags 102-103 = 191, algorithm 103-104 = 0, sid 104-108 = 7

4: 01 05 28 18 10 00 FF
    entry 100-107, locator_block_length 102-103 = 40, locator_node_length 103-104 = 24
    function_length 104-105 = 16, argument_length 105-106 = 0, raw 106-107
4: 01 03 28 18 10
    entry 100-105, value 102-105
4: 01 04 80 01 00 00
    entry 100-106, locator_block_length 102-103 = 128, locator_node_length 103-104 = 1
    function_length 104-105 = 0, argument_length 105-106 = 0
4: 01 04 28 18 10 00 01 04 20 10 10 00
    entry 100-106, locator_block_length 102-103 = 40, locator_node_length 103-104 = 24
    function_length 104-105 = 16, argument_length 105-106 = 0
    entry 106-112, locator_block_length 108-109 = 32, locator_node_length 109-110 = 16
    function_length 110-111 = 16, argument_length 111-112 = 0
4: 02 00
    entry 100-102, value 102-102

5: 01 00
    entry 100-102, value 102-102
";

/// The masks: a prefix, its bits, and what they leave of it.
const MASKS: [(&str, usize, &str); 2] = [("FF FF", 13, "FF F8"), ("FF FF", 17, "FF FF")];

/// The types of registry 0 that RFC 5305 reserves and that have no name.
const RESERVED_TYPES: [u8; 6] = [250, 251, 252, 253, 254, 255];

/// The labels in the order of their numbers, each with its name and its shape; the last is label 55
/// where it has 64 bits.
const LABELS: &str = "
    type:0 length:0 value:6 raw:6 sub_tlvs:7
    admin_group:2 local_identifier:2 remote_identifier:2
    ipv4_interface_address:4 ipv4_neighbor_address:4
    ipv6_interface_address:5 ipv6_neighbor_address:5
    max_bandwidth:2 max_reservable_bandwidth:2 unreserved_bandwidth:7 te_default_metric:2
    flags:0 weight:0 algorithm:0 sid:2 neighbor_system_id:6
    anomalous:0 delay:2 min_delay:2 max_delay:2 delay_variation:2 link_loss:2 bandwidth:2
    endpoint_behavior:1 srv6_sid:5
    locator_block_length:0 locator_node_length:0 function_length:0 argument_length:0
    tags:7 flag_x:0 flag_r:0 flag_n:0 ipv4_source_router_id:4 ipv6_source_router_id:5
    ranges:7 algorithms:7 msds:7 preference:0 srv6_flags:1 ipv4_te_router_id:4 ipv6_te_router_id:5
    sub_tlv:8 range:8 range_size:2 range_sid:2 msd:8 msd_type:0 msd_value:0
    bandwidth_element:2 tag:2 algorithm_element:0
    tag64:3
";

/// An input and what is shown of it.
struct Case {
    /// The registry.
    registry: u8,
    /// The octets, as the page has them.
    octets: &'static str,
    /// The records, as the list has them.
    records: Vec<&'static str>,
}

/// A record without its children's positions.
#[derive(Debug, PartialEq, Eq)]
struct Seen {
    label: u8,
    shape: u8,
    registry: u8,
    octets: (u64, u64),
    number: u64,
}

impl Seen {
    /// A record with this name.
    fn named(name: &str, registry: u8, octets: (u64, u64), number: u64) -> Self {
        let labels = LABELS.split_whitespace().map(|word| word.split_once(':'));
        let mut labels = (0..).zip(labels.map(|parts| parts.expect("a name and a shape")));
        let found = labels.find(|(_, parts)| parts.0 == name);
        let (place, (_, shape)) = found.expect(name);
        Self {
            label: if name == "tag64" { 55 } else { place },
            shape: shape.parse().expect(shape),
            registry,
            octets,
            number,
        }
    }

    /// What one of the oracle's records says.
    fn of_oracle(record: &oracle::Record) -> Self {
        Self {
            label: record.label,
            shape: record.shape,
            registry: record.registry,
            octets: (record.first, record.past_last),
            number: record.number,
        }
    }

    /// What a record on a tape says.
    fn of_tape(record: native::Record) -> Self {
        let [label, shape, registry, ..] = record[0].to_le_bytes();
        assert_eq!(record[0] >> 24, 0, "word 0 of {record:?}");
        Self {
            label,
            shape,
            registry,
            octets: (record[1], record[2]),
            number: record[3],
        }
    }
}

/// All cases of the list.
fn cases() -> Vec<Case> {
    let mut cases: Vec<Case> = Vec::new();
    for line in CASES.lines().filter(|line| !line.is_empty()) {
        if let Some(records) = line.strip_prefix("    ") {
            let case = cases.last_mut().expect("a line of records has an input");
            case.records.extend(records.split(", "));
            continue;
        }
        let (registry, octets) = line.split_once(": ").expect(line);
        cases.push(Case {
            registry: registry.parse().expect(line),
            octets,
            records: Vec::new(),
        });
    }
    cases
}

/// The octets of a word: two hex digits and, after a star, how many there are.
fn repeated(word: &str) -> Option<Vec<u8>> {
    let (digits, count) = word.split_once('*').unwrap_or((word, "1"));
    let is_hex = digits
        .chars()
        .all(|digit| "0123456789ABCDEF".contains(digit));
    if digits.len() != 2 || !is_hex {
        return None;
    }
    let octet = u8::from_str_radix(digits, 16).ok()?;
    Some(vec![octet; count.parse().ok()?])
}

/// The octets of a text, if it is one of octets alone.
fn octets(text: &str) -> Option<Vec<u8>> {
    let words: Option<Vec<_>> = text.split(' ').map(repeated).collect();
    Some(words?.concat())
}

impl Case {
    /// The octets of the input.
    fn area(&self) -> Vec<u8> {
        octets(self.octets).expect(self.octets)
    }

    /// The input, for a message.
    fn input(&self) -> String {
        format!("registry {}, {}", self.registry, self.octets)
    }

    /// Whether the list has the first entry read.
    fn is_read(&self) -> bool {
        self.records[0].starts_with("entry ") && !self.records[1].starts_with("value ")
    }

    /// The records that the list has: the array, then those that it names.
    fn expected(&self) -> Vec<Seen> {
        let entry = self.records.iter().rfind(|text| text.starts_with("entry "));
        let end = entry.map_or(BASE.into(), |text| place(text).1);
        let array = Seen::named("sub_tlvs", self.registry, (BASE.into(), end), 0);
        let listed = self.records.iter().flat_map(|text| self.listed(text));
        [array].into_iter().chain(listed).collect()
    }

    /// The records of a text such as `name/registry 100-101 = 7`.
    fn listed(&self, text: &str) -> Vec<Seen> {
        let (name, _) = text.split_once(' ').expect(text);
        let (name, registry) = match name.split_once('/') {
            Some((name, registry)) => (name, registry.parse().expect(text)),
            None => (name, self.registry),
        };
        if name == "entry" {
            return self.entry(registry, place(text));
        }
        let number = text.split_once(" = ").map_or("0", |(_, number)| number);
        let number = number.parse().expect(text);
        vec![Seen::named(name, registry, place(text), number)]
    }

    /// The object, the type and the length of an entry over these octets.
    fn entry(&self, registry: u8, (first, past): (u64, u64)) -> Vec<Seen> {
        let area = self.area();
        let at = (first - u64::from(BASE)) as usize;
        let [t, length] = [area[at], area[at + 1]].map(u64::from);
        vec![
            Seen::named("sub_tlv", registry, (first, past), 0),
            Seen::named("type", registry, (first, first + 1), t),
            Seen::named("length", registry, (first + 1, first + 2), length),
        ]
    }
}

/// The octets of a text such as `name 100-101 = 7`.
fn place(text: &str) -> (u64, u64) {
    let range = text.split(' ').nth(1).expect(text);
    let (first, past) = range.split_once('-').expect(text);
    (first.parse().expect(text), past.parse().expect(text))
}

/// What the Rust shows of an area.
fn by_rust(registry: u8, area: &[u8]) -> Vec<Seen> {
    let push = oracle::push(registry, BASE, area);
    push.records.iter().map(Seen::of_oracle).collect()
}

/// What the proved library shows of an area on a tape of this layout.
fn by_library(layout: Layout, registry: u8, area: &[u8]) -> Vec<Seen> {
    let room = vec![[0; 6]; shown::bound(area.len())];
    let mut tape = tapes::full(layout, &room);
    native::clear(layout, &mut tape);
    let area = Area::new(registry.into(), BASE.into(), area);
    let outcome = native::push(layout, area, &mut tape);
    assert_eq!(outcome.answer, 0, "{layout}, {area}");
    let records = model::used_records(layout, &tape).expect("a tape");
    assert_eq!(outcome.written, records.len() as u64, "{layout}, {area}");
    records.map(Seen::of_tape).collect()
}

/// The types that the Rust reads: registry, type, least length.
fn types_read() -> impl Iterator<Item = (u8, u8, u8)> {
    let types =
        (0..=oracle::LAST_REGISTRY).flat_map(|registry| (0..=u8::MAX).map(move |t| (registry, t)));
    types.filter_map(|(registry, t)| Some((registry, t, oracle::least_length(registry, t)?)))
}

/// The section of the page.
fn section() -> &'static str {
    let (_, rest) = PAGE
        .split_once("\n## The Rust against the RFCs\n")
        .expect("the section");
    rest.split_once("\n## ").expect("a section after it").0
}

/// The texts in backquotes that are octets alone.
fn quoted(text: &'static str) -> impl Iterator<Item = &'static str> {
    let quotes = text.split('`').skip(1).step_by(2);
    quotes.filter(|quote| octets(quote).is_some())
}

/// The parts of the section: what stands before the first heading, then each heading's.
fn parts() -> impl Iterator<Item = &'static str> {
    section().split("\n### ")
}

/// Whether a part is that of the masks.
fn is_masks(part: &&str) -> bool {
    part.starts_with("Masks ")
}

/// The inputs of a part, each with the registry that the heading names, if it names one.
fn inputs(part: &'static str) -> Vec<(Option<u8>, &'static str)> {
    let heading = part.strip_prefix("Registry ");
    let registry = heading.and_then(|rest| rest.get(..1)?.parse().ok());
    quoted(part).map(|text| (registry, text)).collect()
}

#[test]
fn the_rust_shows_what_the_page_says() {
    for case in cases() {
        let given = by_rust(case.registry, &case.area());
        assert_eq!(given, case.expected(), "{}", case.input());
    }
}

#[test]
fn ours_shows_what_the_page_says() {
    for layout in Layout::ALL {
        for case in cases() {
            let given = by_library(layout, case.registry, &case.area());
            assert_eq!(given, case.expected(), "{layout}, {}", case.input());
        }
    }
}

#[test]
fn ours_is_the_rust_in_every_word() {
    for layout in Layout::ALL {
        let mut comparison = Comparison::new(layout, Random::new(1));
        for case in cases() {
            comparison.every_room(case.registry, &case.area());
        }
        assert!(comparison.tally.calls() > 500);
    }
}

#[test]
fn the_list_has_the_inputs_of_the_page_and_no_others() {
    let parts = parts().filter(|part| !is_masks(part));
    let page: BTreeSet<_> = parts.flat_map(inputs).collect();
    let cases = cases();
    let inputs = cases.iter().map(|case| (Some(case.registry), case.octets));
    let list: BTreeSet<_> = inputs.collect();
    let missing: Vec<_> = page.difference(&list).collect();
    assert!(missing.is_empty(), "not in the list: {missing:?}");
    let others: Vec<_> = list.difference(&page).collect();
    assert!(others.is_empty(), "not on the page: {others:?}");
    assert_eq!(list.len(), cases.len(), "an input stands twice in the list");
}

#[test]
fn every_type_that_is_read_has_an_input_that_is_read() {
    let cases = cases();
    let read = cases.iter().filter(|case| case.is_read());
    let met: BTreeSet<_> = read.map(|case| (case.registry, case.area()[0])).collect();
    let types: BTreeSet<_> = types_read().map(|(registry, t, _)| (registry, t)).collect();
    assert_eq!(types.len(), 39);
    assert!(types.is_subset(&met), "{:?}", types.difference(&met));
}

#[test]
fn every_type_that_is_read_has_an_input_one_octet_too_short() {
    let cases = cases();
    let unread = cases.iter().filter(|case| !case.is_read());
    let starts = unread.map(|case| (case.registry, case.area()[..].first_chunk().copied()));
    let met: BTreeSet<(u8, Option<[u8; 2]>)> = starts.collect();
    for (registry, t, least) in types_read().filter(|row| row.2 > 0) {
        let short = (registry, Some([t, least - 1]));
        assert!(met.contains(&short), "registry {registry}, type {t}");
    }
}

#[test]
fn the_masks_of_the_page_come_out() {
    let part = parts().find(is_masks).expect("a part on masks");
    let page: Vec<_> = quoted(part).collect();
    assert_eq!(page, ["FF FF", "FF F8", "FF FF"]);
    for (prefix, bits, expected) in MASKS {
        let [mut rust, mut ours] = [prefix; 2].map(|text| octets(text).expect(text));
        oracle::mask_prefix(&mut rust, bits);
        native::mask(&mut ours, bits);
        let expected = octets(expected).expect(expected);
        assert_eq!(
            [rust, ours],
            [expected.clone(), expected],
            "{prefix} to {bits}"
        );
    }
}

#[test]
fn the_reserved_types_have_no_name() {
    for t in RESERVED_TYPES {
        assert_eq!(oracle::name(0, t), None);
        let given = native::name(0, t.into(), &mut [0; 64]);
        assert_eq!(given, shown::outcome(0, 0, 0, 0));
    }
}
