-- Four devices with an application (image 0) and a radio (image 1).

-- What runs on each device. Its key lets SQLite read the rows in order, without sorting them.
CREATE TABLE running (
    device TEXT, image INTEGER, version TEXT, counter INTEGER, floor INTEGER, PRIMARY KEY (device, image)
) WITHOUT ROWID;

-- What a version of an image needs.
CREATE TABLE needs (image INTEGER, version TEXT, other INTEGER, minimum TEXT);

INSERT INTO running VALUES
    ('truck-1', 0, '1.0.0+0', 0, 0), ('truck-1', 1, '1.0.0+0', 0, 0),
    ('truck-2', 0, '1.0.0+0', 0, 0),                                    -- it has no radio
    ('truck-3', 0, '2.1.0+0', 0, 0), ('truck-3', 1, '1.0.0+0', 0, 0),   -- it tried a newer application
    ('truck-4', 0, '1.0.0+0', 0, 0), ('truck-4', 1, '1.0.0+0', 3, 3);   -- its radio accepts no counter below 3

INSERT INTO needs VALUES (0, '2.1.0+0', 1, '1.0.0+0');
