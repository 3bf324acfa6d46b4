--  An allocator for a collection whose finalization has started raises Program_Error, where its objects have a
--  controlled part (RM 4.8).
with Ada.Finalization; use Ada.Finalization;
with Ada.Text_IO;      use Ada.Text_IO;

procedure Too_Late is
begin
   declare
      type Node;
      type Link is access Node;
      type Node is new Limited_Controlled with null record;

      overriding procedure Finalize (X : in out Node);

      procedure Finalize (X : in out Node) is
         V : Link;
      begin
         V := new Node;
         Put_Line ("made");
      exception
         when Program_Error =>
            Put_Line ("late");
      end Finalize;

      H : Link;
   begin
      H := new Node;
   end;
end Too_Late;
