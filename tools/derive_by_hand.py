"""Functions with a definition of their own name whose body is written by hand, by their module and
their name, each with the reason. An entry that isn't needed is an error."""

LOOP = "goes through a list, and the invariant in proofs/ names the variable of its loop"
FIRST = "looks at the first item of a list and at the rest"
STD = "calls functions of std for which definitions have other words"
VALUE = "asks a JSON value by calls for which the definition has other words"
SUM = "the definition's sum or product may be larger than the type, so the body compares otherwise"
SHORTER = "names what the definition repeats"
VIEW = "no function stands for a definition that is by another view of the value"

BY_HAND = {
    # gltf_findings
    "names::are_supported": LOOP,
    "names::is_listed": LOOP,
    "names::is_word": LOOP,
    "skeletons::are_among": LOOP,
    "skeletons::are_below": LOOP,
    "skeletons::have_one_root": FIRST,
    "skeletons::is_whole": "the joints that it looks at are numbers in the definition",
    "version::digits_of": LOOP,
    "version::point_in": LOOP,
    # files
    "chunk::number_at": STD,
    "container::Container::is_bin_longer": SUM,
    "uri::ends_scheme": LOOP,
    "uri::has_early_colon": LOOP,
    "uri::has_media_type": STD,
    "uri::has_scheme": FIRST,
    "uri::has_uri_bytes": LOOP,
    "uri::is_buffer_data": STD,
    "uri::is_escape": STD,
    "uri::is_uri_character": STD,
    "uri::is_without_data": STD,
    # lines
    "choices::is_at_or_below": STD,
    "counts::Counts::at_least": "the definition cuts a sum off, as saturating additions do",
    "geometry::triangle_count": "the definition's difference of numbers is never below 0",
    "members::is_version_1": STD,
    "members::version_in": VALUE,
    "part::index_of": "its definition is by the digits of a text",
    "placed::file_json": VIEW,
    "placed::placed_one": VIEW,
    "sources::has_name": LOOP,
    # members
    "attribute::all_digits": LOOP,
    "attribute::is_set_number": FIRST,
    "document::is_kept": "it is told whether a member is quiet, which spares the search",
    "document::is_needed_name": LOOP,
    "lists::empty_code": VALUE,
    "lists::length_code": VALUE,
    "members::empty_object_code": VALUE,
    "misfit::index_misfit": VALUE,
    "misfit::is_integer": VALUE,
    "misfit::misfit": VALUE,
    "misfit::misfit_in": VALUE,
    "misfit::whole_misfit": VALUE,
    "required::lacking_code": VALUE,
    "rows::is_missing": VALUE,
    "rows::reads_null_as_absent": VALUE,
    "rows::row_named": LOOP,
    "table::Table::undeclared_code": VIEW,
    "table::Table::unknown_extension_code": VALUE,
    "table::extras_code": VALUE,
    "table::is_known": LOOP,
    # rules
    "accessors::is_behind_view": SUM,
    "accessors::item_count": VALUE,
    "accessors::view_of": "the definition goes by the number of the index, which the body spares",
    "animations::differs": SUM,
    "drawing::lacks_in_material": SHORTER,
    "materials::are_zeros": LOOP,
    "meshes::is_skinned": LOOP,
    "placed::are_oblique": SHORTER,
    "placed::is_identity": LOOP,
    "placed::is_non_unit": SHORTER,
    "placed::is_skinned_mesh": "it looks at a mark that is made once for each mesh",
    "placed::is_unskinned": "it looks at a mark that is made once for each mesh",
    "sets::has_gap": LOOP,
    "views::ends_behind": SUM,
}
