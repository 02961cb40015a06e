// A paint function and a shape of one's own as they were written for ratatui's canvas. Nothing here names a crate:
// the `use` lines stand where this text is included.

/// A cross at a point, by dots.
struct Cross {
    x: f64,
    y: f64,
    arm: usize,
    color: Color,
}

impl Shape for Cross {
    fn draw(&self, painter: &mut Painter) {
        let Some((x, y)) = painter.get_point(self.x, self.y) else {
            return;
        };
        for step in 0..=2 * self.arm {
            painter.paint(x - self.arm + step, y, self.color);
            painter.paint(x, y - self.arm + step, self.color);
        }
    }
}

fn paint(ctx: &mut Context) {
    let grey = Color::Rgb(95, 95, 95);
    ctx.draw(&Rectangle {
        x: -22.0,
        y: -16.0,
        width: 44.0,
        height: 32.0,
        color: grey,
    });
    ctx.draw(&FilledLine::new(-22.0, -14.0, 22.0, -11.5, -16.0, grey));
    ctx.layer();
    ctx.draw(&Circle {
        x: 0.0,
        y: 0.0,
        radius: 28.0,
        color: Color::Rgb(95, 175, 255),
    });
    let rim: Vec<(f64, f64)> = (-20..=20)
        .map(|k| (f64::from(k), 14.0 - 0.02 * f64::from(k * k)))
        .collect();
    ctx.draw(&Points {
        coords: &rim,
        color: Color::Rgb(95, 255, 135),
    });
    ctx.draw(&Cross {
        x: 3.0,
        y: 1.5,
        arm: 3,
        color: Color::Reset,
    });
    ctx.marker(Marker::HalfBlock);
    for height in [-24.0, 24.0] {
        ctx.draw(&Line::new(
            -40.0,
            height,
            40.0,
            height,
            Color::Rgb(255, 215, 95),
        ));
    }
    ctx.print(-49.0, 29.0, "R  BLANK 56");
    ctx.print(30.0, 0.0, format!("rim {}", rim.len()));
}
