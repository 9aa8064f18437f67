"""Random parameter sets of H.264 and sequence headers of AV1, with what tshark and ffmpeg show of them."""
from __future__ import annotations

import re
import struct
import subprocess
import tempfile
from random import Random
from typing import Any

from parameter_sets import Bits
from protocol_messages import Message, Values, case_of
from protocols import Made

Json = Any
PROFILES = {"Baseline": 66, "Main": 77, "Extended": 88, "High": 100, "High10": 110, "High422": 122}


def stopped(bits: Bits) -> bytes:
    """Returns the bytes of bits, with the bit that ends them."""
    text = bits.text + "1"
    text += "0" * (-len(text) % 8)
    return int(text, 2).to_bytes(len(text) // 8, "big")


def unit(kind: int, data: bytes) -> Made:
    """A unit of H.264 in which no byte is escaped."""
    return Made(data, before=bytes([kind]))


def drawn_sps(r: Random) -> bytes:
    """A sequence parameter set without scaling lists.

    It is of no 4:4:4 profile, of which tshark does not know that it is a high one.
    """
    b = Bits(r)
    profile = b.u(8, r.choice((66, 77, 88, 100, 110, 122)))
    b.any(6)
    b.u(2, 0)
    b.any(8)
    b.range(0, 31)
    if profile >= 100:
        if b.range(0, 3) == 3:
            b.any(1)
        b.range(0, 6)
        b.range(0, 6)
        b.any(1)
        b.u(1, 0)
    b.range(0, 12)
    draw_ordering(b)
    b.range(0, 16)
    b.any(1)
    b.range(0, 500)
    b.range(0, 300)
    if not b.flag():
        b.any(1)
    b.any(1)
    if b.flag():
        for _ in range(4):
            b.range(0, 20)
    if b.flag():
        draw_vui(b)
    return stopped(b)


def draw_ordering(b: Bits) -> None:
    """How the pictures are ordered."""
    ordering = b.range(0, 2)
    if ordering == 0:
        b.range(0, 12)
    if ordering == 1:
        b.any(1)
        b.signed(-9, 9)
        b.signed(-9, 9)
        for _ in range(b.range(0, 255)):
            b.signed(-9, 9)


def draw_vui(b: Bits) -> None:
    """How the pictures are shown."""
    if b.flag() and b.u(8, b.draw.choice((1, 2, 255))) == 255:
        b.any(32)
    if b.flag():
        b.any(1)
    if b.flag():
        b.any(4)
        if b.flag():
            b.any(24)
    if b.flag():
        b.range(0, 5)
        b.range(0, 5)
    if b.flag():
        b.tick()
        b.tick()
        b.any(1)
    decoders = [draw_decoder(b), draw_decoder(b)]
    if any(decoders):
        b.any(1)
    b.any(1)
    if b.flag():
        b.any(1)
        for _ in range(6):
            b.range(0, 16)


def draw_decoder(b: Bits) -> bool:
    """The parameters of a reference decoder, if there are any; returns true then."""
    if not b.flag():
        return False
    count = b.range(0, 31) + 1
    b.any(8)
    for _ in range(count):
        b.range(0, 9000)
        b.range(0, 9000)
        b.any(1)
    b.any(20)
    return True


def unescaped(r: Random, draw: Any) -> bytes:
    """Returns the first drawn bytes in which none needs an escape."""
    while re.search(rb"\x00\x00[\x00-\x03]|\x00\Z", data := draw(r)):
        pass
    return bytes(data)


def h264_sps(r: Random) -> Made:
    """A sequence parameter set of H.264."""
    return unit(0x67, unescaped(r, drawn_sps))


def drawn_pps(r: Random) -> bytes:
    """A picture parameter set of a high profile, without slice groups and scaling lists."""
    b = Bits(r)
    b.range(0, 255)
    b.range(0, 31)
    b.any(2)
    b.ue(0)
    b.range(0, 31)
    b.range(0, 31)
    b.any(3)
    for _ in range(3):
        b.signed(-12, 12)
    b.any(4)
    b.u(1, 0)
    b.signed(-12, 12)
    return stopped(b)


def h264_high_pps(r: Random) -> Made:
    """A picture parameter set of H.264."""
    return unit(0x68, unescaped(r, drawn_pps))


def stored_signed(value: int) -> int:
    """Returns the number that is stored for a signed one."""
    return 2 * value - 1 if value > 0 else -2 * value


def taken(record: Json, names: dict[str, str]) -> Values:
    """Returns the values of fields, each for the field of the peer; a field may be inside of parts, which may be missing.

    Of a signed number tshark 4.0 shows the number that is stored for it.
    """
    found: Values = {}
    for peer, path in names.items():
        value = record
        for it in path.split("."):
            value = value[it] if value is not None else None
        if value is not None and peer in SIGNED:
            value = stored_signed(value)
        found[peer] = [int(value)] if value is not None else []
    return found


def of_peer(said: str) -> dict[str, str]:
    """Parses `FIELD_OF_THE_PEER=FIELD ..`."""
    return dict(it.split("=") for it in said.split())


SIGNED = (
    "offset_for_non_ref_pic",
    "offset_for_top_to_bottom_field",
    "pic_init_qp_minus26",
    "pic_init_qs_minus26",
    "chroma_qp_index_offset",
    "second_chroma_qp_index_offset",
)
SPS = of_peer(
    "level_id=level seq_parameter_set_id=id log2_max_frame_num_minus4=frame_number_bits pic_order_cnt_type=ordering"
    " log2_max_pic_order_cnt_lsb_minus4=order_bits.value delta_pic_order_always_zero_flag=cycle.always"
    " offset_for_non_ref_pic=cycle.other offset_for_top_to_bottom_field=cycle.bottom num_ref_frames=frames"
    " gaps_in_frame_num_value_allowed_flag=gaps pic_width_in_mbs_minus1=width pic_height_in_map_units_minus1=height"
    " frame_mbs_only_flag=frames_only mb_adaptive_frame_field_flag=fields.set direct_8x8_inference_flag=inferred"
    " frame_crop_left_offset=crop.left frame_crop_right_offset=crop.right frame_crop_top_offset=crop.top"
    " frame_crop_bottom_offset=crop.bottom aspect_ratio_idc=vui.aspect.ratio sar_width=vui.aspect.size.width"
    " sar_height=vui.aspect.size.height overscan_appropriate_flag=vui.overscan.set video_format=vui.signal.format"
    " video_full_range_flag=vui.signal.full colour_primaries=vui.signal.colours.primaries"
    " transfer_characteristics=vui.signal.colours.transfer matrix_coefficients=vui.signal.colours.matrix"
    " chroma_sample_loc_type_top_field=vui.places.top chroma_sample_loc_type_bottom_field=vui.places.bottom"
    " num_units_in_tick=vui.timing.ticks time_scale=vui.timing.scale fixed_frame_rate_flag=vui.timing.fixed"
    " nal_hrd_parameters_present_flag=vui.units vcl_hrd_parameters_present_flag=vui.slices low_delay_hrd_flag=vui.delay.set"
    " pic_struct_present_flag=vui.structure motion_vectors_over_pic_boundaries_flag=vui.limits.outside"
    " max_bytes_per_pic_denom=vui.limits.picture max_bits_per_mb_denom=vui.limits.block"
    " max_mv_length_horizontal=vui.limits.horizontal log2_max_mv_length_vertical=vui.limits.vertical"
    " num_reorder_frames=vui.limits.reordered max_dec_frame_buffering=vui.limits.buffered"
)
DECODER = of_peer(
    "bit_rate_scale=rate_scale cpb_size_scale=size_scale initial_cpb_removal_delay_length_minus1=first_delay"
    " cpb_removal_delay_length_minus1=removal dpb_output_delay_length_minus11=output time_offset_length=offset"
)
SCHEDULE = of_peer("bit_rate_value_minus1=rate cpb_size_value_minus1=size cbr_flag=constant")
CHROMA = of_peer(
    "chroma_format_id=format residual_colour_transform_flag=planes.set bit_depth_luma_minus8=luma"
    " bit_depth_chroma_minus8=chroma qpprime_y_zero_transform_bypass_flag=bypass"
)
PPS = of_peer(
    "pic_parameter_set_id=common.id seq_parameter_set_id=common.sequence entropy_coding_mode_flag=common.cabac"
    " pic_order_present_flag=common.bottom_order num_ref_idx_l0_active_minus1=common.list0"
    " num_ref_idx_l1_active_minus1=common.list1 weighted_pred_flag=common.weighted weighted_bipred_idc=common.biweighted"
    " pic_init_qp_minus26=common.quantizer pic_init_qs_minus26=common.switching chroma_qp_index_offset=common.chroma"
    " deblocking_filter_control_present_flag=common.deblocking constrained_intra_pred_flag=common.constrained"
    " redundant_pic_cnt_present_flag=common.redundant transform_8x8_mode_flag=transform"
    " second_chroma_qp_index_offset=second_chroma"
)


def of_h264(values: Values) -> Values:
    """Returns values with the whole names that fields of H.264 have in tshark."""
    return {f"h264.{name}": it for name, it in values.items()}


def decoder_values(vui: Json) -> Values:
    """The reference decoders, the second one's fields behind those of the first one."""
    found = [it for it in (vui["units_decoder"], vui["slices_decoder"]) if it] if vui else []
    values: Values = {peer: [it[name] for it in found] for peer, name in DECODER.items()}
    values["cpb_cnt_minus1"] = [len(it["schedules"]) - 1 for it in found]
    for peer, name in SCHEDULE.items():
        values[peer] = [int(one[name]) for it in found for one in it["schedules"]]
    return values


def sps_values(record: Json) -> Values:
    """A sequence parameter set of H.264."""
    case, held = case_of(record["profile"])
    values = taken(record, SPS) | taken(held or None, CHROMA) | decoder_values(record["vui"])
    values["profile_idc"] = [PROFILES[case]]
    frames = [it["value"] for it in record["cycle"]["frames"]] if record["cycle"] else []
    values["offset_for_ref_frame"] = [stored_signed(it) for it in frames]
    values["num_ref_frames_in_pic_order_cnt_cycle"] = [len(frames)] * bool(record["cycle"])
    for k in range(6):
        values[f"constraint_set{k}_flag"] = [record["constraints"] >> 5 - k & 1]
    return of_h264(values)


def av1_sequence(r: Random) -> Made:
    """A sequence header of AV1, without a decoder model."""
    b = Bits(r)
    profile = b.u(3, r.randrange(3))
    still = b.flag()
    reduced = b.u(1, int(still and r.getrandbits(1)))
    if reduced:
        b.u(5, r.randrange(24))
    else:
        draw_points(b)
    sizes = [r.randrange(1, 17), r.randrange(1, 17)]
    b.u(4, sizes[0] - 1)
    b.u(4, sizes[1] - 1)
    b.any(sizes[0])
    b.any(sizes[1])
    if not reduced and b.flag():
        b.u(4, r.randrange(13))
        b.u(3, r.randrange(2))
    b.any(3)
    if not reduced:
        draw_tools(b)
    b.any(3)
    draw_colours(b, profile)
    b.any(1)
    data = stopped(b)
    return Made(data, before=b"\x12\0\x0a" + bytes([len(data)]))


def draw_points(b: Bits) -> None:
    """The times and the operating points."""
    if b.flag():
        b.tick()
        b.tick()
        if b.flag():
            b.range(0, 500)
        b.u(1, 0)
    delayed = b.flag()
    for _ in range(b.u(5, b.draw.choice((0, 0, 1, 3, 3))) + 1):
        b.any(12)
        if b.u(5, b.draw.randrange(24)) > 7:
            b.any(1)
        if delayed and b.flag():
            b.u(4, b.draw.randrange(10))


def draw_tools(b: Bits) -> None:
    """The tools that several pictures have."""
    b.any(4)
    hinted = b.flag()
    if hinted:
        b.any(2)
    if b.flag() or b.flag():
        if not b.flag():
            b.any(1)
    if hinted:
        b.any(3)


def draw_colours(b: Bits, profile: int) -> None:
    """The colours, and how their chroma is sampled."""
    deep = b.u(1, b.draw.choice((0, 1, 1, 1)))
    twelve = profile == 2 and deep and b.u(1, b.draw.choice((0, 1, 1, 1)))
    grey = profile != 1 and b.u(1, b.draw.choice((0, 0, 0, 1)))
    colours = [2, 2, 2]
    if b.flag():
        colours = b.draw.choice(([1, 13, 0], [1, 13, 1], [9, 13, 0], [b.draw.choice((1, 2, 9)) for _ in range(3)]))
        for it in colours:
            b.u(8, it)
    if grey:
        b.any(1)
        return
    if colours != [1, 13, 0]:
        b.any(1)
        across, down = profile != 1, profile == 0
        if twelve:
            across = b.flag()
            down = across and b.flag()
        if across and down:
            b.u(2, b.draw.randrange(3))
    b.any(1)


AV1 = of_peer(
    "still_picture=still reduced_still_picture_header=reduced num_units_in_display_tick=points.timing.ticks"
    " time_scale=points.timing.scale equal_picture_interval=points.timing.equal"
    " num_ticks_per_picture_minus_1=points.timing.interval.value delta_frame_id_length_minus_2=numbers.sizes.difference"
    " additional_frame_id_length_minus_1=numbers.sizes.more use_128x128_superblock=superblocks"
    " enable_filter_intra=filter_intra enable_intra_edge_filter=edge_filter enable_interintra_compound=tools.inter_intra"
    " enable_masked_compound=tools.masked enable_warped_motion=tools.warped enable_dual_filter=tools.dual_filter"
    " enable_order_hint=tools.hinted enable_jnt_comp=tools.order.weighted enable_ref_frame_mvs=tools.order.motion"
    " order_hint_bits_minus_1=tools.hint_bits.bits enable_superres=superres enable_cdef=directional"
    " enable_restoration=restoration film_grain_params_present=grain"
)
COLOURS = of_peer("color_primaries=primaries transfer_characteristics=transfer matrix_coefficients=matrix")


def point_values(record: Json) -> Values:
    """The operating points of AV1."""
    case, held = case_of(record["points"]["points"]) if record["points"] else ("", {})
    delayed = case == "Delayed"
    found = [it["point"] if delayed else it for it in held["points"]] if case else [record["level"]]
    values: Values = {"initial_display_delay_present_flag": [int(delayed)] * bool(case)}
    values["operating_points_cnt_minus_1"] = [len(found) - 1] * bool(case)
    for k in range(4):
        point = found[k] if k < len(found) else {}
        high = point.get("high")
        delay = held["points"][k]["delay"]["frames"] if delayed and point else None
        values[f"operating_point_idc[{k}]"] = [point["layers"]] if "layers" in point else []
        values[f"seq_level_idx[{k}]"] = [point["level"]] if point else []
        values[f"seq_tier[{k}]"] = [int(high["set"])] if high else []
        values[f"initial_display_delay_minus_1[{k}]"] = [delay["frames"]] if delay else []
    return values


def colour_values(record: Json) -> Values:
    """The colours of AV1, and how their chroma is sampled."""
    profile, held = case_of(record["profile"])
    values: Values = {"seq_profile": [("Main", "High", "Professional").index(profile)]}
    values["high_bitdepth"] = [int(held["deep"])] if "deep" in held else []
    values["twelve_bit"], values["mono_chrome"] = [], []
    if profile == "Professional":
        depth, held = case_of(held["depth"])
        values["high_bitdepth"] = [int(depth == "Deep")]
        if depth == "Deep":
            depth, held = case_of(held["depth"])
            values["twelve_bit"] = [int(depth == "Twelve")]
    grey = False
    if "samples" in held:
        samples, held = case_of(held["samples"])
        grey = samples == "Grey"
        values["mono_chrome"] = [int(grey)]
    held = held.get("colours", held) if profile == "High" else held
    return values | (grey_values(held) if grey else meaning_values(held))


def grey_values(held: Json) -> Values:
    """The colours of samples without chroma."""
    values = taken(held["colours"], COLOURS)
    values |= dict.fromkeys(("subsampling_x", "subsampling_y", "chroma_sample_position", "separate_uv_delta_q"), [])
    return values | {"color_range": [int(held["full"])]}


def meaning_values(held: Json) -> Values:
    """The colours of samples with chroma, and how it is sampled."""
    case, meaning = case_of(held["meaning"])
    values = taken(meaning if case == "Stated" else None, COLOURS)
    values["separate_uv_delta_q"] = [int(held["apart"])]
    if case == "Stated":
        meaning = next((meaning[it] for it in ("placed", "full", "sampled") if it in meaning), None) or {}
    values["color_range"] = [int(meaning[it]) for it in ("full", "set") if it in meaning]
    down = meaning.get("down") or {}
    values["subsampling_x"] = [meaning["across"]] if "across" in meaning else []
    values["subsampling_y"] = [down["down"]] if down else []
    place = (down.get("position") or {}) if down else meaning
    values["chroma_sample_position"] = [place["position"]] if "position" in place else []
    return values


def av1_values(record: Json) -> Values:
    """A sequence header of AV1."""
    values = taken(record, AV1) | point_values(record) | colour_values(record)
    for name, field in (("width", "width"), ("height", "height")):
        bits = [*record[field], int(record[f"{field}_end"])]
        values[f"max_frame_{name}_minus_1"] = [int("".join(map(str, bits)), 2)]
    case, held = case_of(record["tools"]["screen"]) if record["tools"] else ("", {})
    values["seq_choose_screen_content_tools"] = [int(case == "Chosen")] * bool(case)
    values["seq_force_screen_content_tools"] = [held["forced"]] if case == "Stated" else []
    motion = held.get("motion") if case == "Stated" else held
    values["seq_choose_integer_mv"] = [motion["chosen"]] if motion else []
    values["seq_force_integer_mv"] = [int(motion["whole"]["set"])] if motion and motion["whole"] else []
    return values


def traced(headers: list[Made], names: list[str]) -> list[dict[str, str]]:
    """Returns the fields that ffmpeg shows of sequence headers of AV1. A field that it does not show is an empty text."""
    with tempfile.NamedTemporaryFile(suffix=".ivf") as file:
        file.write(b"DKIF" + struct.pack("<2H4s2H4I", 0, 32, b"AV01", 16, 16, 25, 1, len(headers), 0))
        for index, it in enumerate(headers):
            data = it.before + it.header
            file.write(struct.pack("<IQ", len(data), index) + data)
        file.flush()
        line = ["ffmpeg", "-v", "trace", "-i", file.name, "-c", "copy", "-copyinkf", "-bsf:v", "trace_headers"]
        ran = subprocess.run([*line, "-f", "null", "-"], capture_output=True, check=True, text=True)
    _, _, *units = ran.stderr.split("] Sequence Header\n")
    said = [dict(re.findall(r"^\[trace_headers @ \w+\] \d+ +(\S+) +[01]+ = (\d+)$", it, re.M)) for it in units]
    return [{name: it.get(name, "") for name in names} for it in said]


VIDEO = {
    "h264_sps": Message("h264", h264_sps, sps_values),
    "av1_sequence": Message("av1", av1_sequence, av1_values),
    "h264_high_pps": Message("h264", h264_high_pps, lambda it: of_h264(taken(it, PPS))),
}
