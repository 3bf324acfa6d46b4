--  The place of a window is a record in a record. Parts of it are handed to procedures by reference and assigned by themselves; only the
--  window as a whole is controlled, so nothing but it is adjusted and finalized (RM 4.1.3, 6.2, 7.6).
with Ada.Finalization; use Ada.Finalization;
with Ada.Text_IO;      use Ada.Text_IO;

procedure Windows is
   type Point is record
      X : Integer;
      Y : Integer;
   end record;

   type Box is record
      Low  : Point;
      High : Point;
   end record;

   type Window is new Controlled with record
      Number : Integer := 1;
      Place  : Box;
   end record;

   overriding procedure Adjust (W : in out Window);
   overriding procedure Finalize (W : in out Window);

   procedure Show (B : Box) is
   begin
      Put_Line ("  from" & Integer'Image (B.Low.X) & Integer'Image (B.Low.Y));
      Put_Line ("  to  " & Integer'Image (B.High.X) & Integer'Image (B.High.Y));
   end Show;

   procedure Move (P : in out Point; By : Integer) is
   begin
      P.X := P.X + By;
      P.Y := P.Y - By;
   end Move;

   procedure Enlarge (B : in out Box; By : Integer) is
   begin
      Move (B.High, By);
   end Enlarge;

   procedure Adjust (W : in out Window) is
   begin
      W.Number := W.Number + 1;
      Put_Line ("copy number" & Integer'Image (W.Number));
   end Adjust;

   procedure Finalize (W : in out Window) is
   begin
      Put_Line ("close number" & Integer'Image (W.Number));
      Show (W.Place);
   end Finalize;

   First : Window;
begin
   Move (First.Place.Low, 3);
   First.Place.High := First.Place.Low;
   Enlarge (First.Place, 10);
   Show (First.Place);
   declare
      Second : Window := First;
   begin
      Move (Second.Place.Low, 1);
      First := Second;
   end;
end Windows;
