--  A guard is handed to procedures by reference, and a recursive walk declares a controlled object at each level. What a level
--  opened is closed when that level is left, the deepest first; the guard goes with its own block (RM 6.2, 7.6.1).
with Ada.Finalization; use Ada.Finalization;
with Ada.Text_IO;      use Ada.Text_IO;

procedure Guarded_Walk is
   type Guard is new Limited_Controlled with record
      Steps : Integer := 0;
      Armed : Boolean := True;
   end record;

   type Visit is new Limited_Controlled with record
      Depth : Integer := 0;
   end record;

   overriding procedure Finalize (X : in out Guard);
   overriding procedure Finalize (X : in out Visit);

   procedure Finalize (X : in out Guard) is
   begin
      if X.Armed then
         Put_Line ("undo" & Integer'Image (X.Steps) & " steps");
      else
         Put_Line ("keep" & Integer'Image (X.Steps) & " steps");
      end if;
   end Finalize;

   procedure Finalize (X : in out Visit) is
   begin
      Put_Line ("leave" & Integer'Image (X.Depth));
   end Finalize;

   procedure Count (X : in out Guard; By : Integer) is
   begin
      X.Steps := X.Steps + By;
   end Count;

   procedure Set (X : in out Guard; Armed : Boolean) is
   begin
      X.Armed := Armed;
   end Set;

   procedure Walk (X : in out Guard; Depth : Integer; Last : Integer) is
      Here : Visit;
   begin
      Here.Depth := Depth;
      Put_Line ("visit" & Integer'Image (Depth));
      Count (X, 1);
      if Depth < Last then
         Walk (X, Depth + 1, Last);
      end if;
   end Walk;
begin
   declare
      G : Guard;
   begin
      Walk (G, 1, 3);
      Set (G, G.Steps < 3);
   end;
   declare
      G : Guard;
   begin
      Walk (G, 1, 2);
      Set (G, G.Steps < 3);
   end;
end Guarded_Walk;
