#version 450
// Packs and unpacks bits by the functions that there are for it.
layout(local_size_x = 16) in;
layout(std430, set = 2, binding = 3) buffer Words {
    uvec2 size;
    uint words[];
};

void main() {
    uint at = gl_GlobalInvocationID.x + gl_GlobalInvocationID.y * size.x;
    uint word = words[at];
    vec2 halves = unpackHalf2x16(word);
    vec4 bytes = unpackUnorm4x8(word);
    uint field = bitfieldExtract(word, 4, 8);
    int signed_field = bitfieldExtract(int(word), 8, 4);
    word = bitfieldInsert(word, field, 16, 8);
    word ^= uint(signed_field) << 3;
    word += uint(findLSB(word) + findMSB(word) + bitCount(word));
    word = bitfieldReverse(word);
    word |= packHalf2x16(halves.yx * 0.5) & packSnorm4x8(bytes * 2.0 - 1.0);
    words[at] = word + floatBitsToUint(intBitsToFloat(int(word)) * 2.0);
}
