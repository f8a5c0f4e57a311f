//! Labels: which field a record is.

use crate::numbered::numbered;

numbered! {
    /// Which field a record is. Its [name](Label::name) is that of the field, such as
    /// `te_default_metric`: 0 to 46 have the numbers and names of the Rust module that the library
    /// is a port of, 47 to 56 are document 01's own. Later ones may come.
    ///
    /// ```
    /// use wakkemosut::Label;
    ///
    /// assert_eq!(Label::TeDefaultMetric.name(), "te_default_metric");
    /// assert_eq!(format!("{:>12}", Label::AdminGroup), " admin_group");
    /// ```
    Label, a "label" {
        /// The type of an entry.
        Type = 0, "type";
        /// The declared length of an entry.
        Length = 1, "length";
        /// The whole value of an entry whose type is unknown or whose value is too short.
        Value = 2, "value";
        /// Octets after what was read.
        Raw = 3, "raw";
        /// The array of entries of a walk.
        SubTlvs = 4, "sub_tlvs";
        /// Administrative group.
        AdminGroup = 5, "admin_group";
        /// Link local identifier.
        LocalIdentifier = 6, "local_identifier";
        /// Link remote identifier.
        RemoteIdentifier = 7, "remote_identifier";
        /// IPv4 interface address.
        Ipv4InterfaceAddress = 8, "ipv4_interface_address";
        /// IPv4 neighbor address.
        Ipv4NeighborAddress = 9, "ipv4_neighbor_address";
        /// IPv6 interface address.
        Ipv6InterfaceAddress = 10, "ipv6_interface_address";
        /// IPv6 neighbor address.
        Ipv6NeighborAddress = 11, "ipv6_neighbor_address";
        /// Maximum link bandwidth, the bits of an IEEE single, in bytes a second.
        MaxBandwidth = 12, "max_bandwidth";
        /// Maximum reservable link bandwidth, the bits of an IEEE single, in bytes a second.
        MaxReservableBandwidth = 13, "max_reservable_bandwidth";
        /// The array of unreserved bandwidths.
        UnreservedBandwidth = 14, "unreserved_bandwidth";
        /// TE default metric.
        TeDefaultMetric = 15, "te_default_metric";
        /// Flags.
        Flags = 16, "flags";
        /// Weight.
        Weight = 17, "weight";
        /// Algorithm.
        Algorithm = 18, "algorithm";
        /// SID, index or label.
        Sid = 19, "sid";
        /// System id of a neighbor.
        NeighborSystemId = 20, "neighbor_system_id";
        /// The A bit of a measurement.
        Anomalous = 21, "anomalous";
        /// Link delay, in microseconds.
        Delay = 22, "delay";
        /// Least link delay, in microseconds.
        MinDelay = 23, "min_delay";
        /// Greatest link delay, in microseconds.
        MaxDelay = 24, "max_delay";
        /// Delay variation, in microseconds.
        DelayVariation = 25, "delay_variation";
        /// Link loss, in units of 0.000003 %.
        LinkLoss = 26, "link_loss";
        /// Residual, available or utilized bandwidth, the bits of an IEEE single, in bytes a
        /// second.
        Bandwidth = 27, "bandwidth";
        /// SRv6 endpoint behavior.
        EndpointBehavior = 28, "endpoint_behavior";
        /// SRv6 SID.
        Srv6Sid = 29, "srv6_sid";
        /// Length of the locator block, in bits.
        LocatorBlockLength = 30, "locator_block_length";
        /// Length of the locator node, in bits.
        LocatorNodeLength = 31, "locator_node_length";
        /// Length of the function, in bits.
        FunctionLength = 32, "function_length";
        /// Length of the argument, in bits.
        ArgumentLength = 33, "argument_length";
        /// The array of administrative tags.
        Tags = 34, "tags";
        /// The X flag: external prefix.
        FlagX = 35, "flag_x";
        /// The R flag: re-advertisement.
        FlagR = 36, "flag_r";
        /// The N flag: node.
        FlagN = 37, "flag_n";
        /// IPv4 source router id.
        Ipv4SourceRouterId = 38, "ipv4_source_router_id";
        /// IPv6 source router id.
        Ipv6SourceRouterId = 39, "ipv6_source_router_id";
        /// The array of ranges of SIDs.
        Ranges = 40, "ranges";
        /// The array of algorithms.
        Algorithms = 41, "algorithms";
        /// The array of maximum SID depths.
        Msds = 42, "msds";
        /// Mapping server preference.
        Preference = 43, "preference";
        /// Flags of SRv6 capabilities.
        Srv6Flags = 44, "srv6_flags";
        /// IPv4 TE router id.
        Ipv4TeRouterId = 45, "ipv4_te_router_id";
        /// IPv6 TE router id.
        Ipv6TeRouterId = 46, "ipv6_te_router_id";
        /// An entry of a walk.
        SubTlv = 47, "sub_tlv";
        /// A range of SIDs.
        Range = 48, "range";
        /// The size of a range.
        RangeSize = 49, "range_size";
        /// The first SID of a range.
        RangeSid = 50, "range_sid";
        /// A maximum SID depth.
        Msd = 51, "msd";
        /// The type of a maximum SID depth.
        MsdType = 52, "msd_type";
        /// The value of a maximum SID depth.
        MsdValue = 53, "msd_value";
        /// An unreserved bandwidth, the bits of an IEEE single, in bytes a second.
        BandwidthElement = 54, "bandwidth_element";
        /// An administrative tag.
        Tag = 55, "tag";
        /// An algorithm of the array.
        AlgorithmElement = 56, "algorithm_element";
    }
}
