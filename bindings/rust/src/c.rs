//! The archive's functions, as bindings/c/mossbuckle.h has them. A slice goes over as a pointer, which is not
//! null, and a length.

#[rustfmt::skip]
extern "C" {
    pub fn mossbuckle_layout() -> u32;

    // the calls, each on a canvas of words and its stores
    pub fn mossbuckle_open(
        canvas: *mut u64, canvas_length: usize, cells: *mut u32, cells_length: usize, labels: *const u32, labels_length: usize,
        columns: u16, rows: u16, left: f64, right: f64, bottom: f64, top: f64, marker: u8, character: u32, background: u32,
    ) -> u8;
    pub fn mossbuckle_line(
        canvas: *mut u64, canvas_length: usize, cells: *mut u32, cells_length: usize, labels: *const u32, labels_length: usize,
        x1: f64, y1: f64, x2: f64, y2: f64, color: u32, painted: &mut u64,
    ) -> u8;
    pub fn mossbuckle_filled_line(
        canvas: *mut u64, canvas_length: usize, cells: *mut u32, cells_length: usize, labels: *const u32, labels_length: usize,
        x1: f64, y1: f64, x2: f64, y2: f64, fill_to_y: f64, color: u32, painted: &mut u64,
    ) -> u8;
    pub fn mossbuckle_rectangle(
        canvas: *mut u64, canvas_length: usize, cells: *mut u32, cells_length: usize, labels: *const u32, labels_length: usize,
        x: f64, y: f64, width: f64, height: f64, color: u32, painted: &mut u64,
    ) -> u8;
    pub fn mossbuckle_circle(
        canvas: *mut u64, canvas_length: usize, cells: *mut u32, cells_length: usize, labels: *const u32, labels_length: usize,
        x: f64, y: f64, radius: f64, color: u32, painted: &mut u64,
    ) -> u8;
    pub fn mossbuckle_points(
        canvas: *mut u64, canvas_length: usize, cells: *mut u32, cells_length: usize, labels: *const u32, labels_length: usize,
        coords: *const f64, coords_length: usize, color: u32, painted: &mut u64,
    ) -> u8;
    pub fn mossbuckle_dot(
        canvas: *mut u64, canvas_length: usize, cells: *mut u32, cells_length: usize, labels: *const u32, labels_length: usize,
        column: u32, row: u32, color: u32, painted: &mut u64,
    ) -> u8;
    pub fn mossbuckle_layer(
        canvas: *mut u64, canvas_length: usize, cells: *mut u32, cells_length: usize, labels: *const u32, labels_length: usize,
    ) -> u8;
    pub fn mossbuckle_marker(
        canvas: *mut u64, canvas_length: usize, cells: *mut u32, cells_length: usize, labels: *const u32, labels_length: usize,
        marker: u8, character: u32,
    ) -> u8;
    pub fn mossbuckle_print(
        canvas: *mut u64, canvas_length: usize, cells: *const u32, cells_length: usize, labels: *mut u32, labels_length: usize,
        x: f64, y: f64, text: *const u8, text_length: usize, color: u32,
    ) -> u8;
    pub fn mossbuckle_render(
        canvas: *mut u64, canvas_length: usize, cells: *mut u32, cells_length: usize, labels: *const u32, labels_length: usize,
        columns: u16, rows: u16, x: u16, y: u16, screen: *mut u32, screen_length: usize,
        painted: &mut u64, label_cells: &mut u32,
    ) -> u8;
    pub fn mossbuckle_point(
        canvas: *const u64, canvas_length: usize, x: f64, y: f64, column: &mut u32, row: &mut u32,
    ) -> u8;
    pub fn mossbuckle_get_point(
        columns: u16, rows: u16, left: f64, right: f64, bottom: f64, top: f64, marker: u8, x: f64, y: f64,
        column: &mut u32, row: &mut u32,
    ) -> u8;

    // picture files, and a screen as bytes
    pub fn mossbuckle_size(file: *const u8, file_length: usize, columns: &mut u16, rows: &mut u16);
    pub fn mossbuckle_blank(screen: *mut u32, screen_length: usize);
    pub fn mossbuckle_draw(
        file: *const u8, file_length: usize, widest: u16, highest: u16, cells: *mut u32, cells_length: usize,
        labels: *mut u32, labels_length: usize, screen: *mut u32, screen_length: usize,
        painted: &mut u64, label_cells: &mut u32, place: &mut usize,
    ) -> u8;
    pub fn mossbuckle_listing(
        columns: u16, rows: u16, painted: u64, screen: *const u32, screen_length: usize, out: *mut u8, out_length: usize,
    ) -> usize;
    pub fn mossbuckle_refusal(number: u8, place: usize, out: *mut u8, out_length: usize) -> usize;
    pub fn mossbuckle_terminal(
        columns: u16, rows: u16, screen: *const u32, screen_length: usize, out: *mut u8, out_length: usize,
    ) -> usize;
}
