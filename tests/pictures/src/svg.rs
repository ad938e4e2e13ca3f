//! What a picture shows: boxes, arrows from one to another, and the text of each, by their places.

/// A piece of text and the classes that it is shown in.
#[derive(Clone, Debug)]
pub struct Piece {
    pub class: String,
    pub text: String,
}

impl Piece {
    pub fn is(&self, class: &str) -> bool {
        self.class.split(' ').any(|word| word == class)
    }
}

/// The pieces of a group, a line's end after each text.
pub type Text = Vec<Piece>;

/// From the left, and from the top.
type Point = (f64, f64);

/// A rectangle with what stands in its group.
pub struct Shape {
    pub class: String,
    left: f64,
    top: f64,
    right: f64,
    bottom: f64,
    pub text: Text,
}

impl Shape {
    /// The text of one class.
    pub fn shown(&self, class: &str) -> String {
        shown(&self.text, class)
    }

    pub fn name(&self) -> String {
        self.shown("name")
    }

    /// Whether a point is on the border, as an arrow's end is: a unit beside it at most.
    fn touches(&self, (x, y): Point) -> bool {
        let within =
            |least: f64, value: f64, most: f64| least - 1.5 <= value && value <= most + 1.5;
        let near = |one: f64, other: f64| (one - other).abs() <= 1.5;
        within(self.left, x, self.right)
            && within(self.top, y, self.bottom)
            && (near(x, self.left)
                || near(x, self.right)
                || near(y, self.top)
                || near(y, self.bottom))
    }
}

/// A way from one box to another, by their numbers, with its label.
pub struct Arrow {
    pub from: usize,
    pub to: usize,
    pub text: Text,
}

#[derive(Default)]
pub struct Picture {
    pub boxes: Vec<Shape>,
    pub arrows: Vec<Arrow>,
    /// Other groups, by their class, and text that is in none, by the class "".
    pub others: Vec<(String, Text)>,
}

/// The text of one class, a space between its pieces.
pub fn shown(text: &[Piece], class: &str) -> String {
    let pieces: Vec<_> = text.iter().filter(|piece| piece.is(class)).collect();
    let words: Vec<_> = pieces.iter().map(|piece| piece.text.trim()).collect();
    words.join(" ")
}

/// All the text.
pub fn whole(text: &[Piece]) -> String {
    text.iter().map(|piece| piece.text.as_str()).collect()
}

fn attribute<'a>(tag: &'a str, name: &str) -> Option<&'a str> {
    let from = tag.find(&format!(" {name}=\""))? + name.len() + 3;
    tag[from..].split('"').next()
}

fn number(tag: &str, name: &str) -> Result<f64, String> {
    let value = attribute(tag, name).ok_or(format!("<{tag}> has no {name}"))?;
    value.parse().map_err(|_| format!("{name} is {value}"))
}

/// The first and the last point of a path of M, H and V alone.
fn ends(path: &str) -> Result<(Point, Point), String> {
    let wrong = || format!("a way is {path}, and not of M, H and V");
    let (mut at, mut first) = ((0.0, 0.0), None);
    let mut words = path.split_whitespace();
    while let Some(word) = words.next() {
        let (kind, value) = word.split_at(1);
        let value: f64 = value.parse().map_err(|_| wrong())?;
        match kind {
            "M" if first.is_none() => {
                let y = words.next().and_then(|word| word.parse().ok());
                at = (value, y.ok_or_else(wrong)?);
                first = Some(at);
            }
            "H" => at.0 = value,
            "V" => at.1 = value,
            _ => return Err(wrong()),
        }
    }
    Ok((first.ok_or_else(wrong)?, at))
}

/// A group that is being read.
struct Group {
    class: String,
    rectangle: Option<Shape>,
    way: Option<String>,
    text: Text,
}

impl Picture {
    pub fn read(svg: &str) -> Result<Picture, String> {
        let mut picture = Picture::default();
        let mut ways = vec![];
        let mut open: Option<Group> = None;
        // the classes of the text and of the piece within it
        let mut classes: Vec<String> = vec![];
        let body = svg.split("</defs>").nth(1).ok_or("no </defs>")?;
        for part in body.split('<').skip(1) {
            let (tag, behind) = part.split_once('>').ok_or("a tag does not end")?;
            let class = attribute(tag, "class").unwrap_or("").to_string();
            match tag
                .split([' ', '/'])
                .find(|word| !word.is_empty())
                .unwrap_or("")
            {
                "g" if tag.starts_with('/') => {
                    let group = open.take().ok_or("a group ends that is not open")?;
                    match (group.class.as_str(), group.rectangle, group.way) {
                        ("box", Some(mut shape), None) => {
                            shape.text = group.text;
                            picture.boxes.push(shape);
                        }
                        ("arrow", None, Some(way)) => ways.push((way, group.text)),
                        ("box" | "arrow", ..) => return Err(format!("a group {}", group.class)),
                        (class, ..) => picture.others.push((class.to_string(), group.text)),
                    }
                }
                "g" if open.is_some() => return Err("a group in a group".to_string()),
                "g" => {
                    open = Some(Group {
                        class,
                        rectangle: None,
                        way: None,
                        text: vec![],
                    })
                }
                "rect" => {
                    if let Some(group) = &mut open {
                        let (left, top) = (number(tag, "x")?, number(tag, "y")?);
                        group.rectangle = Some(Shape {
                            class,
                            left,
                            top,
                            right: left + number(tag, "width")?,
                            bottom: top + number(tag, "height")?,
                            text: vec![],
                        });
                    }
                }
                "path" => {
                    let group = open.as_mut().ok_or("a way in no group")?;
                    let path = attribute(tag, "d").ok_or("a way without its path")?;
                    group.way = Some(path.to_string());
                }
                "text" | "tspan" if tag.starts_with('/') => {
                    classes.pop();
                }
                "text" | "tspan" => classes.push(class),
                _ => {}
            }
            let texts = match &mut open {
                Some(group) => &mut group.text,
                None => {
                    if picture
                        .others
                        .last()
                        .is_none_or(|(class, _)| !class.is_empty())
                    {
                        picture.others.push((String::new(), vec![]));
                    }
                    &mut picture.others.last_mut().expect("it was pushed").1
                }
            };
            if tag == "/text" {
                texts.push(Piece {
                    class: String::new(),
                    text: "\n".to_string(),
                });
            } else if !classes.is_empty() && !behind.is_empty() {
                let class = classes.last().filter(|class| !class.is_empty());
                texts.push(Piece {
                    class: class.unwrap_or(&classes[0]).clone(),
                    text: behind.replace("&amp;", "&"),
                });
            }
        }
        for (way, text) in ways {
            let (first, last) = ends(&way)?;
            let touched = |point| -> Result<usize, String> {
                let at = |&at: &usize| picture.boxes[at].touches(point);
                let found: Vec<_> = (0..picture.boxes.len()).filter(at).collect();
                match found[..] {
                    [one] => Ok(one),
                    _ => Err(format!("the way {way} ends at {} boxes", found.len())),
                }
            };
            let (from, to) = (touched(first)?, touched(last)?);
            picture.arrows.push(Arrow { from, to, text });
        }
        Ok(picture)
    }

    /// The text of all groups of a class that are neither boxes nor arrows.
    pub fn group(&self, class: &str) -> Text {
        let groups = self.others.iter().filter(|(of, _)| of == class);
        groups.flat_map(|(_, text)| text.clone()).collect()
    }

    /// All text of the picture, group by group.
    pub fn texts(&self) -> impl Iterator<Item = &Text> {
        let boxes = self.boxes.iter().map(|shape| &shape.text);
        let arrows = self.arrows.iter().map(|arrow| &arrow.text);
        boxes
            .chain(arrows)
            .chain(self.others.iter().map(|(_, text)| text))
    }
}
