# Request 02's patch of the original's `verify_cbr_stream`: what its MPEG-2 arm looks up is multiplied by the extension's n + 1
# and d + 1 (`oracle_extended`, oracle/build). Its MPEG-1 arm and every other line stay.
s/^pub fn verify_cbr_stream(/pub fn oracle_verify_extended(/
/^ *full_vbv \* 16 \* 1024,$/,/^ *)$/s/frame_rate_value(header\.frame_rate_code)?/oracle_extended(&, ext.frame_rate_extension_n, ext.frame_rate_extension_d)/
