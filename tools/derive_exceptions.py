"""What of an object doesn't follow from its struct and its rows, with the reason."""
from dataclasses import dataclass

from derive_names import SCHEMA

# The fields that aren't named for their rows: attributes have the names of the Rust crate.
FIELDS = {
    "POSITION": "positions",
    "NORMAL": "normals",
    "TANGENT": "tangents",
}


@dataclass
class Fact:
    """How the answers prove a row: what stands round its fact, the names of the proofs by rows in
    it, and what else it uses."""
    text: str
    names: list
    uses: tuple = ()


AP = "use Rattle.std.proofs.Common.{ap}"
SYM = "use Rattle.std.proofs.Common.{sym}"
INDEX = f"use Rattle.{SCHEMA}.specs.Tree.{{index}}"

# By the base of the object, the row, and what is done with it.
FACTS = {
    # A sampler is read as the number of its index: no list of a document holds it.
    ("animation_channel", "sampler", "read"): Fact(
        "(sampler_read g.met.R.ReadRows.as_sampler (sym c.number-number.ensures) "
        "c.new-self.ensures {})",
        ["sampler_read"], (SYM,)),
    ("animation_channel", "sampler", "write"): Fact(
        "(sampler_written (sym c.number.ensures) {})", ["sampler_written"], (SYM,)),
    # The kind is that of an image, and the default is an index that a call makes.
    ("texture", "source", "read"): Fact(
        "(source_read g.met.R.ReadRows.as_source {})", ["source_read"]),
    ("texture", "source", "write"): Fact(
        "(default_as (ap index c.new.ensures) (source_written {}))",
        ["default_as", "source_written"], (AP, INDEX)),
}

# The blocks that are written by hand, with the reason.
BY_HAND = {
    ("unlit", "Object"):
        "it has no rows",
    ("buffer", "new"):
        "a buffer is made of its length",
    ("texture", "new"):
        "a texture is made of its image",
    ("animation", "new"):
        "an animation is made of its channels and samplers",
    ("scene", "new"):
        "a scene is made of its nodes",
    ("skin", "new"):
        "a skin is made of its joints",
    ("material", "Visitable"):
        "what is wrong in a material is found at once, before a walk enters it",
    ("animation_channel", "Visitable"):
        "a channel is visited by its animation, whose samplers it names",
    ("animation_channel", "ListItem"):
        "the channels are visited with their animation",
    ("animation_channel", "SchemaObject"):
        "a channel is validated by its animation alone",
    ("AttenuationDistance", "value"):
        "a distance that is absent has no end, and is no number",
}

# What `new` returns, by the base of the object, where it says more than that each member has its
# default.
NEW = {
    "ior": "the default index of refraction",
    "transmission": "an object by which no light is transmitted",
    "pbr_specular_glossiness": "parameters with every member at its default",
    "volume": "an object for a thin-walled surface",
    "emissive_strength": "the default strength",
    "texture_transform": "the identity transform",
    "image": "an image without data, every member at its default",
    "material": "a material with every member at its default",
    "pbr_metallic_roughness": "parameters with every member at its default",
    "sampler": "a sampler with every member at its default: it repeats the texture",
    "spot": "a cone with every member at its default",
    "node": "a node with every member at its default",
    "morph_target": "a morph target without displacements",
    "material_extension": "an empty extension object",
    "info_extension": "an empty extension object",
    "node_extension": "an empty extension object",
    "primitive_extension": "an empty extension object",
    "root_extension": "an empty extension object",
}

# The arms of `event` that are no members, by the object and the row in whose place they stand.
ARMS_IN_ROWS = {
    # The channels are visited with their animation.
    ("animation", "channels"): [
        "E::enter(",
        '    Step::Field("channels"),',
        "    ValueRef::Channels(self),",
        "    are_channels_quiet(self, context),",
        "    context,",
        "),",
    ],
    # The image may be none.
    ("texture", "source"): ['E::fault_at("source", source_fault(self, &context.context())),'],
}

# The arms of `event` that say what a rule names, by the rule.
ARMS_OF_RULES = {
    "needs_data": ['E::fault_at("bufferView", data_fault(self)),'],
    "needs_projection": ["E::fault_here(projection_fault(self)),"],
    "needs_cone": ['E::fault_at("spot", spot_fault(self)),'],
    "needs_positions": [
        "{",
        "    let faults = position_faults(self, context.context().root);",
        "    E::enter(",
        '        Step::Field("attributes"),',
        "        ValueRef::AtPositions(faults),",
        "        are_positions_quiet(faults),",
        "        context,",
        "    )",
        "}",
    ],
    "requires_enabled": [
        "E::enter(",
        '    Step::Field("extensionsRequired"),',
        "    ValueRef::RequiredExtensions(&self.extensions_required),",
        "    are_names_quiet(&self.extensions_required, context),",
        "    context,",
        "),",
    ],
}

# The answers of `event` that no tactic finds: the row or the rule whose arm they prove, and their
# text, in which the number of the arm is `§`.
EVENT_ANSWERS = {
    "accessor": ("needs_data", """
-- The accessor's rule speaks of its view.
pub returns-in-§-clause-comes : goal.returns-in-§-clause-comes
unfolding accessor_rows sparse_rows sparse_indices_rows accessor_members
returns-in-§-clause-comes g c =
    let at = field (codes "bufferView") in
    let context = g.C.HasContext.context c.args.context.now in
    rw c.in-§.is (c.fault_at.ensures context _ (ap (down at)
    (found_leaf (accessor_rule (accessor_members c.args.self.now)) _ at c.data_fault.ensures)))
"""),
    "light": ("needs_cone", """
-- The light's rule speaks of its cone.
pub returns-in-§-clause-comes : goal.returns-in-§-clause-comes
unfolding light_rows spot_rows light_members
returns-in-§-clause-comes g c =
    let at = field (codes "spot") in
    let context = g.C.HasContext.context c.args.context.now in
    rw c.in-§.is (c.fault_at.ensures context _ (ap (down at)
    (found_leaf (light_rule (light_members c.args.self.now)) _ at c.spot_fault.ensures)))
"""),
    "animation": ("samplers", """
-- The samplers name nothing of the animation that holds them.
pub returns-in-§-clause-comes : goal.returns-in-§-clause-comes
unfolding animation_rows animation_sampler_rows animation_members animation_sampler_members
returns-in-§-clause-comes g c =
    let context = g.C.HasContext.context c.args.context.now in
    let above = closed_object (animation_members c.args.self.now) in
    rw c.in-§.is (c.member.ensures _ (ap (λ ps. down (field (codes "samplers")) (place ps []))
    (items_same (λ t. checklist animation_sampler_kind t context absent)
    (λ t. checklist animation_sampler_kind t context above)
    (λ x. closed_object (animation_sampler_members x))
    (λ x. refl) c.args.self.now.samplers.items 0)))
"""),
}

# The call that makes a `ValueRef` of two references to textures, in place of `TwoTextures`: the
# parameters of a material share it with the material.
TWO_TEXTURES = {"pbr_metallic_roughness": "parameters_ref"}

# The variant of `ValueRef` for an object, if it holds more than a reference to it: the extensions
# of a material share one with the material, because the compiler limits what references reach.
VALUE_REFS = {"material_extension": "Material(None, self)"}

# What the variant of an object is called, if not as its rows are.
VARIANT_NAMES = {
    "node_extension": "NodeExtensions",
    "light_of_node": "NodeLight",
    "root_extension": "RootExtensions",
    "lights": "RootLights",
}


@dataclass
class Variant:
    """A variant of `ValueRef` that is no object of the table and no list of one: what it holds, its
    shapes in `specs/` with the checklist of each, what its parts are called in a match, and its
    event."""
    name: str
    holds: str
    checklists: list
    bound: str
    event: str
    doc: tuple = ()
    is_found: bool = False
    is_looked_at: bool = False
    is_numbered: bool = True


VARIANTS = [
    Variant("Leaf", "Option<Error>", [("Leaf e", "leaf e")], "fault", "leaf_at(fault, number)",
            ("A place with nothing below, and the fault there.",), is_found=True),
    Variant("RequiredExtensions", "&'a Vec<String>",
            [("RequiredExtensions xs", "place (item_checklists (name_checklist context.rules.enabled) "
              "0 (items_in (list_tree text_tree xs.now.items))) []")],
            "names", "E::from_event(extension_at(names, number))",
            ("The names of the extensions that a document requires, and one of them.",)),
    Variant("RequiredExtension", "&'a String",
            [("RequiredExtension x", "name_checklist context.rules.enabled (text_tree x.now)")],
            "name", "E::from_event(in_extension(name, number, context))", is_looked_at=True),
    Variant("Channels", "&'a {animation}",
            [("Channels a", "checklist (ListOf {animation_channel_kind}) (list_tree "
              "({animation_channel_tree}) a.now.channels.items) context "
              "(closed_object (animation_members a.now))")],
            "animation", "E::from_event(channel_at(animation, number))",
            ("The channels of an animation, and one of them with the animation whose samplers it "
             "names.",)),
    Variant("Channel", "&'a {animation_channel}, &'a {animation}",
            [("Channel x a", "checklist {animation_channel_kind} (closed_object "
              "(animation_channel_members x.now)) context "
              "(closed_object (animation_members a.now))")],
            "channel, animation", "in_channel(channel, animation, number, context)",
            is_looked_at=True),
    Variant("Material", "Option<MaterialFaults>, &'a {material_extension}",
            [("Material (Some m) e", "material_checklist context m (material_extensions e.now)"),
             ("Material None e", "extensions_checklist context (material_extensions e.now)")],
            "faults, extensions", "at_material(faults, extensions, number, context)",
            ("What is wrong in the members of a material, with its extensions; or extensions "
             "alone. One",
             "variant has both, because the compiler limits what references reach "
             "(docs/DECISIONS.md,",
             "\"What references may reach\")."),
            is_looked_at=True),
    Variant("PlainMaterial", "MaterialFaults",
            [("PlainMaterial m", "material_checklist context m absent")],
            "faults", "in_material(faults, None, number, context)",
            ("What is wrong in the members of a material without extensions.",),
            is_looked_at=True),
    Variant("TextureReference", "ReferenceState",
            [("TextureReference s", "reference_checklist s")],
            "state", "in_reference(state, number)", is_found=True),
    Variant("OneTexture", "ReferenceState, MemberName", [("OneTexture s n", "one_texture s n")],
            "state, name", "E::from_event(in_one_texture(state, name, number))",
            ("An object in which only references to textures can be wrong: one or two, with their "
             "names.",), is_found=True),
    Variant("TwoTextures", "ReferenceState, ReferenceState, MemberName, MemberName",
            [("TwoTextures s r n m", "two_textures s r n m")],
            "first, second, first_name, second_name",
            "E::from_event(in_two_textures(first, second, first_name, second_name, number))",
            is_found=True),
    Variant("Attributes", "&'a BTreeMap<Checked<Semantic>, Index<{accessor}>>",
            [("Attributes m", "checklist (Attributes ListName.accessors) (attributes_tree m.now) "
              "context absent")], "_", "unreachable!()", is_numbered=False),
    Variant("Attribute", "Option<Error>, Option<Error>", [("Attribute k i", "entry_checklist k i")],
            "key, index", "in_attribute(key, index, number)",
            ("The faults of an attribute's key and of its index.",), is_found=True),
    Variant("AtPositions", "PositionFaults",
            [("AtPositions f", "at_positions (faults_checklist f)")],
            "faults", "E::from_event(at_attributes(faults, number))",
            ("The attributes as their primitive's rule looks at them, and the positions in them.",),
            is_found=True),
    Variant("Positions", "PositionFaults", [("Positions f", "faults_checklist f")],
            "faults", "in_positions(faults, number)", is_found=True),
    Variant("NodeIndexes", "&'a Vec<Index<{node}>>",
            [("NodeIndexes xs", "checklist (ListOf (IndexInto ListName.nodes)) "
              "(list_tree index_tree xs.now.items) context absent")],
            "indexes", "item_at(indexes, number, context)"),
]

# The arms of `is_quiet` of the variants above: a pattern, a function and its arguments.
QUIET_BY_HAND = [
    ("ValueRef::Material(Some(faults), extensions)", "is_material_quiet",
     ["faults", "Some(*extensions)", "context"]),
    ("ValueRef::PlainMaterial(faults)", "is_material_quiet", ["faults", "None", "context"]),
    ("ValueRef::Channel(channel, animation)", "is_channel_quiet",
     ["channel", "animation", "context"]),
    ("ValueRef::RequiredExtension(name)", "is_name_quiet", ["name", "context"]),
]

# What the numbers of a member are called in its function, if they are no colors.
NUMBER_NAMES = {("node", "translation"): "xyz", ("node", "scale"): "xyz"}
