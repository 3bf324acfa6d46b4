--  A key opens a door as long as some key of it is left. An assignment gives back what the target held before it takes the value of the
--  source: the target is finalized, takes the value and is adjusted (RM 5.2, 7.6). A key that is assigned to itself stays as it is.
with Ada.Finalization; use Ada.Finalization;
with Ada.Text_IO;      use Ada.Text_IO;

procedure Assigned_Keys is
   Left : Integer := 0;

   type Key is new Controlled with record
      Door : Integer := 0;
   end record;

   overriding procedure Adjust (X : in out Key);
   overriding procedure Finalize (X : in out Key);

   --  A key that is larger by what it remembers: it inherits both operations (RM 3.4, 3.9.1).
   type Marked_Key is new Key with record
      Mark : Integer := 9;
   end record;

   procedure Adjust (X : in out Key) is
   begin
      if X.Door > 0 then
         Left := Left + 1;
         Put_Line ("another key of door" & Integer'Image (X.Door) & ", keys" & Integer'Image (Left));
      end if;
   end Adjust;

   procedure Finalize (X : in out Key) is
   begin
      if X.Door > 0 then
         Left := Left - 1;
         Put_Line ("a key of door" & Integer'Image (X.Door) & " is gone, keys" & Integer'Image (Left));
      end if;
      X.Door := 0;
   end Finalize;

   Front, Back : Key;
   Mine, Yours : Marked_Key;
begin
   Front.Door := 1;
   Left := 1;
   Back := Front;
   Back := Back;
   Front := Back;
   Mine.Door := 2;
   Mine.Mark := 4;
   Left := Left + 1;
   Yours := Mine;
   Put_Line ("mark" & Integer'Image (Yours.Mark));
end Assigned_Keys;
