/* Thin functions over zint's library (Debian's libzint-dev), another writer of Han Xin, for the benchmark: bench/run builds them. */
#include <stddef.h>
#include <zint.h>

struct zint_symbol *bench_zint_new(int version, int level, int mask)
{
    struct zint_symbol *symbol = ZBarcode_Create();
    if (symbol != NULL) {
        symbol->symbology = BARCODE_HANXIN;
        symbol->input_mode = DATA_MODE;
        symbol->option_1 = level + 1;
        symbol->option_2 = version;
        symbol->option_3 = (mask + 1) << 8;
    }
    return symbol;
}

/* Encoding alone. The modules of an earlier call stay, so a symbol is for one text. */
int bench_zint_write(struct zint_symbol *symbol, const unsigned char *text, int length)
{
    symbol->rows = 0;
    symbol->width = 0;
    return ZBarcode_Encode(symbol, text, length);
}

int bench_zint_module(const struct zint_symbol *symbol, int row, int column)
{
    if (row >= symbol->rows || column >= symbol->width) {
        return -1;
    }
    return symbol->encoded_data[row][column / 8] >> (column % 8) & 1;
}

void bench_zint_free(struct zint_symbol *symbol) { ZBarcode_Delete(symbol); }
