--  An Initialize that allocates: the inner object joins the collection before the outer one (RM 4.8, 7.6).
with Ada.Finalization; use Ada.Finalization;
with Ada.Text_IO;      use Ada.Text_IO;

procedure Nested_Allocators is
   Count : Integer := 0;

   type Node;
   type Link is access Node;

   type Node is new Limited_Controlled with record
      N   : Integer := 0;
      Kid : Link;
   end record;

   overriding procedure Initialize (X : in out Node);
   overriding procedure Finalize (X : in out Node);

   procedure Initialize (X : in out Node) is
   begin
      Count := Count + 1;
      X.N := Count;
      if Count < 3 then
         X.Kid := new Node;
      end if;
   end Initialize;

   procedure Finalize (X : in out Node) is
   begin
      Put_Line ("N" & Integer'Image (X.N));
   end Finalize;
begin
   declare
      H : Link := new Node;
   begin
      Put_Line (Integer'Image (H.Kid.Kid.N));
   end;
end Nested_Allocators;
