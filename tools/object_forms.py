"""Objects that are worked by hand: the type of each, its JSON, and behind an arrow what it is written as (without one: as it is;
`invalid`: it is read, and isn't written). The types are those of table.py."""

FORMS = r"""
Accessor {"count":0,"componentType":5120,"type":"MAT3","normalized":false,"name":null,"min":null,"zz":1} -> {"count":0,"componentType":5120,"type":"MAT3"}
Accessor {"count":1,"componentType":5126,"type":"SCALAR","sparse":{"count":1,"indices":{"bufferView":0,"componentType":5123},"values":{"bufferView":1}}} -> {"count":1,"componentType":5126,"type":"SCALAR","sparse":{"count":1,"indices":{"bufferView":0,"byteOffset":0,"componentType":5123},"values":{"bufferView":1,"byteOffset":0}}}
Accessor {"bufferView":4294967295,"byteOffset":0,"count":18446744073709551615,"componentType":5121,"type":"VEC2","min":[0,-1],"max":{},"name":"","normalized":true,"sparse":{"count":1,"indices":{"bufferView":0,"byteOffset":0,"componentType":5121},"values":{"bufferView":0,"byteOffset":0}},"extensions":{"EXT_x":null},"extras":0}
Sparse {"count":1,"indices":{"bufferView":0,"byteOffset":2,"componentType":5125,"extensions":{"EXT_x":1},"extras":1},"values":{"bufferView":0,"byteOffset":3,"extensions":{"EXT_x":1},"extras":[]},"extensions":{"EXT_x":1},"extras":{}} -> {"count":1,"indices":{"bufferView":0,"byteOffset":2,"componentType":5125,"extensions":{},"extras":1},"values":{"bufferView":0,"byteOffset":3,"extensions":{},"extras":[]},"extensions":{},"extras":{}}
Indices {"bufferView":1,"byteOffset":2,"componentType":5121,"extensions":{},"extras":1}
Values {"bufferView":1,"byteOffset":2,"extensions":{},"extras":"a"}
Buffer {} -> {"byteLength":0}
Buffer {"uri":null,"name":"a","extensions":{"EXT_x":1}} -> {"byteLength":0,"name":"a","extensions":{"EXT_x":1}}
Buffer {"byteLength":1,"name":"a","uri":"b","extensions":{"EXT_x":1},"extras":"c"}
View {"buffer":0,"byteLength":0}
View {"buffer":7,"byteLength":1,"byteOffset":0,"byteStride":0,"name":"a","target":34963,"extensions":{"EXT_x":1},"extras":""}
Image {}
Image {"bufferView":0,"mimeType":"image/gif","name":"a","uri":"b","extensions":{"EXT_x":1},"extras":false}
texture.Sampler {} -> {"wrapS":10497,"wrapT":10497}
texture.Sampler {"magFilter":9728,"minFilter":9987,"name":"a","wrapS":33071,"extensions":{"EXT_x":1},"extras":1} -> {"magFilter":9728,"minFilter":9987,"name":"a","wrapS":33071,"wrapT":10497,"extensions":{"EXT_x":1},"extras":1}
Texture {"source":4294967295} -> {}
Texture {"source":4294967294}
Texture {"name":"a","sampler":0,"extensions":{"EXT_x":1},"source":0,"extras":{}}
Info {"index":0} -> {"index":0,"texCoord":0}
Info {"index":0,"extensions":{"KHR_texture_transform":{},"EXT_x":1},"extras":1} -> {"index":0,"texCoord":0,"extensions":{"KHR_texture_transform":{"texCoord":null},"EXT_x":1},"extras":1}
NormalTexture {"index":0} -> {"index":0,"texCoord":0}
NormalTexture {"index":0,"scale":1,"extensions":{"EXT_x":1},"extras":1} -> {"index":0,"scale":1,"texCoord":0,"extensions":{"EXT_x":1},"extras":1}
OcclusionTexture {"index":0} -> {"index":0,"texCoord":0}
OcclusionTexture {"index":0,"strength":1,"extensions":{"EXT_x":1},"extras":1} -> {"index":0,"strength":1,"texCoord":0,"extensions":{"EXT_x":1},"extras":1}
TextureTransform {} -> {"texCoord":null}
TextureTransform {"offset":[0,0],"extras":null} -> {"offset":[0,0],"texCoord":null}
TextureTransform {"offset":[0.25,-1],"rotation":0,"scale":[1,1],"texCoord":0,"extras":1}
Material {} -> {"alphaMode":"OPAQUE","doubleSided":false,"pbrMetallicRoughness":{}}
Material {"normalTexture":{"index":1},"occlusionTexture":{"index":2},"emissiveTexture":{"index":3},"extensions":{"KHR_materials_unlit":{"zz":1},"EXT_x":1}} -> {"alphaMode":"OPAQUE","doubleSided":false,"pbrMetallicRoughness":{},"normalTexture":{"index":1,"texCoord":0},"occlusionTexture":{"index":2,"texCoord":0},"emissiveTexture":{"index":3,"texCoord":0},"extensions":{"KHR_materials_unlit":{},"EXT_x":1}}
Material {"alphaCutoff":0.5,"alphaMode":"MASK","doubleSided":true,"name":"a","pbrMetallicRoughness":{"metallicFactor":1},"normalTexture":{"index":1,"texCoord":0},"occlusionTexture":{"index":2,"texCoord":0},"emissiveTexture":{"index":3,"texCoord":0},"emissiveFactor":[0,0,0],"extensions":{"EXT_x":1},"extras":[]}
PbrMetallicRoughness {}
PbrMetallicRoughness {"baseColorFactor":[1,1,1,1],"baseColorTexture":{"index":0,"texCoord":1},"metallicFactor":1,"roughnessFactor":1,"metallicRoughnessTexture":{"index":0,"texCoord":0},"extensions":{"EXT_x":1},"extras":1}
Material.extensions {"EXT_x":{"a":[1,0.5,null]},"zz":null}
Material.extensions {"KHR_materials_pbrSpecularGlossiness":{"zz":null},"KHR_materials_unlit":{},"KHR_materials_transmission":{},"KHR_materials_volume":{},"KHR_materials_specular":{},"KHR_materials_ior":{},"KHR_materials_emissive_strength":{},"EXT_x":1}
Material.extensions {"KHR_materials_unlit":null,"KHR_materials_ior":null} -> {}
PbrSpecularGlossiness {"EXT_x":{"a":[1,0.5,null]},"zz":null}
PbrSpecularGlossiness {"diffuseFactor":[1,1,1,1],"diffuseTexture":{"index":0,"texCoord":0},"specularFactor":[1,1,1],"glossinessFactor":1,"specularGlossinessTexture":{"index":0,"texCoord":0},"extras":1,"zz":1}
Transmission {}
Transmission {"transmissionFactor":0,"transmissionTexture":{"index":0,"texCoord":0},"extras":1}
Volume {}
Volume {"thicknessFactor":0,"thicknessTexture":{"index":0,"texCoord":0},"attenuationDistance":2.5,"attenuationColor":[1,1,1],"extras":1}
Specular {}
Specular {"specularFactor":1,"specularTexture":{"index":0,"texCoord":0},"specularColorFactor":[1,1,1],"specularColorTexture":{"index":0,"texCoord":0},"extras":1}
Ior {}
Ior {"ior":1.5,"extras":1}
EmissiveStrength {}
EmissiveStrength {"emissiveStrength":1}
Accessor.extensions {"EXT_x":{"a":[1,0.5,null]},"zz":null}
Buffer.extensions {"EXT_x":{"a":[1,0.5,null]},"zz":null}
View.extensions {"EXT_x":{"a":[1,0.5,null]},"zz":null}
Image.extensions {"EXT_x":{"a":[1,0.5,null]},"zz":null}
texture.Sampler.extensions {"EXT_x":{"a":[1,0.5,null]},"zz":null}
Texture.extensions {"EXT_x":{"a":[1,0.5,null]},"zz":null}
Info.extensions {"EXT_x":{"a":[1,0.5,null]},"zz":null}
Info.extensions {"KHR_texture_transform":{"texCoord":1},"EXT_x":1}
PbrMetallicRoughness.extensions {"EXT_x":{"a":[1,0.5,null]},"zz":null}
NormalTexture.extensions {"EXT_x":{"a":[1,0.5,null]},"zz":null}
OcclusionTexture.extensions {"EXT_x":{"a":[1,0.5,null]},"zz":null}
Unlit {"EXT_x":{"a":[1,0.5,null]},"zz":null} -> {}
Sparse.extensions {"EXT_x":{"a":[1,0.5,null]},"zz":null} -> {}
Indices.extensions {"EXT_x":{"a":[1,0.5,null]},"zz":null} -> {}
Values.extensions {"EXT_x":{"a":[1,0.5,null]},"zz":null} -> {}
Asset {"version":"1","minVersion":null,"extensions":{"EXT_x":1},"zz":1} -> {"version":"1","extensions":{}}
Asset {"copyright":"","generator":"a","minVersion":"1","version":"2.0","extensions":{},"extras":[1.5]}
Animation {"samplers":[],"channels":[]} -> {}
Animation {"samplers":[{"input":0,"output":1}],"name":"a","extensions":{"EXT_x":1},"extras":null} -> {"samplers":[{"input":0,"interpolation":"LINEAR","output":1}],"name":"a","extensions":{"EXT_x":1}}
Animation {"samplers":[{"input":0,"interpolation":"STEP","output":1}],"channels":[{"sampler":0,"target":{"node":0,"path":"scale"}}],"name":"a","extensions":{"EXT_x":1},"extras":1}
Channel {"sampler":4294967295,"target":{"node":1,"path":"rotation","extensions":{"EXT_x":1},"extras":2},"extensions":{"EXT_x":1},"extras":1} -> {"sampler":4294967295,"target":{"node":1,"path":"rotation","extensions":{},"extras":2},"extensions":{},"extras":1}
Target {"node":1,"path":"weights","extensions":{},"extras":2}
animation.Sampler {"input":0,"interpolation":"CUBICSPLINE","output":1,"extensions":{},"extras":1}
Camera {"type":"orthographic"}
Camera {"name":"a","orthographic":{"xmag":1,"ymag":0.5,"zfar":2,"znear":-1},"perspective":{"yfov":1,"znear":1},"type":"perspective","extensions":{"EXT_x":1},"extras":1}
Orthographic {"xmag":1,"ymag":1,"zfar":2,"znear":1,"extensions":{"EXT_x":1},"extras":1}
Perspective {"aspectRatio":null,"yfov":1,"zfar":null,"znear":1} -> {"yfov":1,"znear":1}
Perspective {"aspectRatio":1,"yfov":2,"zfar":3,"znear":4,"extensions":{"EXT_x":1},"extras":1}
Mesh {"primitives":[]}
Mesh {"extensions":{"EXT_x":1},"extras":1,"name":"a","primitives":[{"attributes":{}}],"weights":[]}
Primitive {"attributes":{},"mode":4,"targets":[]} -> {"attributes":{},"targets":[]}
Primitive {"attributes":{"COLOR_+1":0,"COLOR_01":1,"COLOR_1":2}} -> {"attributes":{"COLOR_1":2}}
Primitive {"attributes":{"WEIGHTS_10":0,"_POSITION":1,"__+":2}}
Primitive {"attributes":{"TEXCOORD_007":1,"JOINTS_+0":2},"targets":[{"POSITION":0,"NORMAL":null},{}]} -> {"attributes":{"TEXCOORD_7":1,"JOINTS_0":2},"targets":[{"POSITION":0},{}]}
Primitive {"attributes":{"_":0,"__x":1,"POSITION":2,"NORMAL":3,"TANGENT":4,"COLOR_0":5,"WEIGHTS_4294967295":6},"extensions":{"KHR_materials_variants":{"mappings":[{"material":0,"variants":[]}]},"EXT_x":1},"extras":1,"indices":0,"material":0,"mode":0,"targets":[{"POSITION":0,"NORMAL":1,"TANGENT":2}]}
MorphTarget {"POSITION":2,"NORMAL":1,"TANGENT":0}
Node {"children":[],"weights":[]}
Node {"camera":0,"children":[0,4294967295],"extensions":{"KHR_lights_punctual":{"light":0},"EXT_x":1},"extras":1,"matrix":[1,0,0,0,0,1,0,0,0,0,1,0,0,0,0,1],"mesh":1,"name":"a","rotation":[0,0,0,1],"scale":[1,1,1],"translation":[0,0,0.5],"skin":2,"weights":[0,-0.5]}
Node.extensions {"KHR_lights_punctual":null,"EXT_x":1} -> {"EXT_x":1}
Scene {"nodes":[],"name":null} -> {}
Scene {"extensions":{"EXT_x":1},"extras":1,"name":"a","nodes":[0]}
Skin {"joints":[],"skeleton":null} -> {}
Skin {"extensions":{"EXT_x":1},"extras":1,"inverseBindMatrices":0,"joints":[1,0],"name":"a","skeleton":2}
Light {"type":"directional"}
Light {"color":[1,1,1],"extensions":[],"extras":1,"intensity":1,"name":"a","range":2,"spot":{"innerConeAngle":0,"outerConeAngle":0.75},"type":"point"}
Light {"spot":{},"type":"spot"}
Spot {"innerConeAngle":0.25,"outerConeAngle":0.5}
LightOfNode {"light":4294967295}
Variant {"name":""}
Mapping {"material":0,"variants":[4294967295]}
VariantMappings {"mappings":[]}
VariantMappings {"mappings":[{"material":4294967295,"variants":[1,0]}]}
Lights {"lights":[]}
Lights {"lights":[{"type":"point"}]}
Variants {"variants":[]}
Variants {"variants":[{"name":"a"}]}
Root.extensions {"EXT_x":{"a":[1,0.5,null]},"zz":null}
Root.extensions {"KHR_lights_punctual":{"lights":[]},"KHR_materials_variants":{"variants":[]},"EXT_x":1}
Animation.extensions {"EXT_x":{"a":[1,0.5,null]},"zz":null}
Camera.extensions {"EXT_x":{"a":[1,0.5,null]},"zz":null}
Orthographic.extensions {"EXT_x":{"a":[1,0.5,null]},"zz":null}
Perspective.extensions {"EXT_x":{"a":[1,0.5,null]},"zz":null}
Mesh.extensions {"EXT_x":{"a":[1,0.5,null]},"zz":null}
Primitive.extensions {"EXT_x":{"a":[1,0.5,null]},"zz":null}
Primitive.extensions {"KHR_materials_variants":{"mappings":[]},"EXT_x":1}
Node.extensions {"EXT_x":{"a":[1,0.5,null]},"zz":null}
Node.extensions {"KHR_lights_punctual":{"light":0},"EXT_x":1}
Scene.extensions {"EXT_x":{"a":[1,0.5,null]},"zz":null}
Skin.extensions {"EXT_x":{"a":[1,0.5,null]},"zz":null}
Asset.extensions {"EXT_x":{"a":[1,0.5,null]},"zz":null} -> {}
Channel.extensions {"EXT_x":{"a":[1,0.5,null]},"zz":null} -> {}
Target.extensions {"EXT_x":{"a":[1,0.5,null]},"zz":null} -> {}
animation.Sampler.extensions {"EXT_x":{"a":[1,0.5,null]},"zz":null} -> {}
Accessor {"count":1,"componentType":5124,"type":"VEC3"} -> invalid
Indices {"bufferView":0,"componentType":5126} -> invalid
View {"buffer":0,"byteLength":1,"target":34964} -> invalid
Primitive {"attributes":{},"mode":7} -> invalid
texture.Sampler {"magFilter":9984} -> invalid
texture.Sampler {"minFilter":0} -> invalid
texture.Sampler {"wrapS":0} -> invalid
texture.Sampler {"wrapT":18446744073709551615} -> invalid
Accessor {"count":1,"componentType":5126,"type":"VEC5"} -> invalid
animation.Sampler {"input":0,"interpolation":"foo","output":0} -> invalid
Target {"node":0,"path":""} -> invalid
Camera {"type":"Perspective"} -> invalid
Light {"type":"foo"} -> invalid
Material {"alphaMode":"opaque"} -> invalid
Primitive {"attributes":{"FOO":0,"POSITION":0}} -> invalid
Primitive {"attributes":{"JOINTS_++0":0}} -> invalid
Primitive {"attributes":{"JOINTS_-0":0}} -> invalid
Primitive {"attributes":{"TEXCOORD_ 1":0}} -> invalid
Primitive {"attributes":{"WEIGHTS_+":0}} -> invalid
Primitive {"attributes":{"JOINTS_0x1":0}} -> invalid
Primitive {"attributes":{"COLOR_1.0":0}} -> invalid
"""
