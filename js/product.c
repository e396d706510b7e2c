/* The product of two numbers of 128 bits, which LLVM calls by this name on WebAssembly. It multiplies halves,
 * since a product of 128 bits would be a call of itself. The kit's linker has its own. */
typedef unsigned long long half;
typedef unsigned __int128 whole;

whole __multi3(whole x, whole y) {
    half x_low = (half)x, y_low = (half)y, mask = 0xffffffff;
    half a = x_low & mask, b = x_low >> 32, c = y_low & mask, d = y_low >> 32;
    half low = a * c;
    half middle = b * c + (low >> 32);
    half cross = a * d + (middle & mask);
    half high = b * d + (middle >> 32) + (cross >> 32);
    high += x_low * (half)(y >> 64) + (half)(x >> 64) * y_low;
    return (whole)high << 64 | (cross << 32 | (low & mask));
}
